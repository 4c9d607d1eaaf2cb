//! The pieces of the library's mark: reader, checks, cone walk and tables.

use library::compare::Sides;
use library::nets::{
    c_with_section, largest_record, line, net, net_a, net_b, net_c, ring_cover, ring_from_input,
    ring_from_last, wide_cone, with_sections, Read, AND,
};
use library::pieces::every_change;
use library::tally::{cases, on_threads, seed, Tally};
use second::encode::{encode, encode_with_holes, with_section};
use second::jobs::SCRATCH_BYTES;
use second::{write_record, Answer, Random};

/// A piece on both threads until there were enough inputs; the answers that must not be rare.
fn run(piece: impl Fn(&mut Sides, &mut Random) + Sync, salt: u64, often: &[usize]) {
    let all = cases() / 4;
    let tally = on_threads(|thread, threads| {
        let mut random = Random::new(seed().wrapping_mul(salt).wrapping_add(thread));
        let mut sides = Sides::new(&mut random);
        while sides.tally.pairs < all / threads + 1 {
            piece(&mut sides, &mut random);
        }
        sides.tally
    });
    finish(&tally);
    for &number in often {
        let seen = tally.seen[number];
        assert!(
            all < 20_000 || seen > all / 100,
            "answer {number} is rare: {seen}"
        );
    }
}

fn finish(tally: &Tally) {
    tally.print();
    tally.fail_on_differences();
}

#[test]
fn reader() {
    run(Sides::reader_piece, 1_000_037, &[4, 5, 6, 7, 8]);
}

/// Every byte of some nets with every value.
#[test]
fn reader_by_hand() {
    let mut random = Random::new(3);
    let holes: [(&[Read], u64); 2] = [
        (&[(0, 1), (1, 0), (3, 2)], 0x96),
        (&[(2, 0), (0, 3), (1, 0), (2, 1), (0, 0), (1, 2)], 1 << 63),
    ];
    let holes = encode_with_holes(&net(2, &holes, &[(3, 1), (2, 0)]), &mut random);
    let twice = encode(&net(1, &[(&[(0, 0), (0, 1)], AND)], &[(1, 0)]));
    let mut nets = vec![net_a(), net_b(0), net_b(1), net_b(3), net_b(4), net_c()];
    nets.extend([holes, twice, encode(&line(3, 3)), c_with_section()]);
    nets.push(with_section(&net_a(), &[7, 0, 1, 2, 4]));
    let tally = on_threads(|thread, threads| {
        let mut random = Random::new(thread);
        let mut sides = Sides::new(&mut random);
        for net in nets.iter().skip(thread as usize).step_by(threads as usize) {
            for changed in every_change(net) {
                for k in [2, 6] {
                    sides.net_alone(&mut random, &changed, k);
                }
            }
        }
        let mut long: Vec<Vec<u8>> = with_sections();
        long.extend([line(32, 0), line(33, 0), largest_record()].map(|net| encode(&net)));
        for net in long {
            for k in 0..=8 {
                sides.net_alone(&mut random, &net, k);
            }
        }
        sides.tally
    });
    finish(&tally);
}

#[test]
fn checks() {
    run(Sides::checks_piece, 1_000_039, &[9, 10, 11, 13]);
}

#[test]
fn cone_walk() {
    let piece = |sides: &mut Sides, random: &mut Random| sides.luts_piece(random, true);
    run(piece, 1_000_081, &[14, 15]);
}

/// The largest cones: a LUT of 183 copies, and of every gate of long lines.
#[test]
fn large_cones() {
    let mut random = Random::new(5);
    let mut sides = Sides::new(&mut random);
    for net in [wide_cone(), line(32, 0), line(32, 1), line(32, 3)] {
        for _ in 0..200 {
            sides.luts_of(&mut random, &net, 6, true);
        }
    }
    finish(&sides.tally);
    assert!(sides.tally.seen[0] > 0 && sides.tally.seen[14] > 0 && sides.tally.seen[15] > 0);
}

/// LUTs with six leaves of two nodes, at many d's, and cones of up to 160 copies: the
/// leaves' nodes below those of the cone, and above them.
#[test]
fn six_leaves() {
    let mut random = Random::new(6);
    let mut sides = Sides::new(&mut random);
    for gates in [3, 4, 5, 8, 16, 32] {
        for (net, leaves) in [ring_from_input(gates), ring_from_last(gates)] {
            let record = write_record(&ring_cover(&net, &leaves));
            let bytes = encode(&net);
            let whole = Some(Answer::Done(0));
            sides.mark(&mut random, &bytes, 6, &record, SCRATCH_BYTES, whole);
            for _ in 0..300 {
                sides.luts_near(&mut random, &net, 6, &leaves);
            }
        }
    }
    finish(&sides.tally);
    assert!(sides.tally.seen[0] > 0 && sides.tally.seen[14] > 0 && sides.tally.seen[15] > 0);
}

#[test]
fn tables() {
    let piece = |sides: &mut Sides, random: &mut Random| sides.luts_piece(random, false);
    run(piece, 1_000_099, &[0, 15]);
}
