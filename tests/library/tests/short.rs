//! Map and mark of the short course against the second mapper's, and against those of the long course
//! on the same inputs: answers, cover areas and scratch, whole.

use library::compare::{all_maps, random_calls, Call, Sides};
use library::inputs::{some_k, some_net};
use library::nets::hand_made;
use library::tally::{cases, on_threads, seed};
use second::jobs::{SCRATCH_BYTES, SHORT};
use second::Random;

#[test]
fn random_and_damaged_nets() {
    let all = cases() / 4;
    let tally = random_calls(SHORT, all, 1_000_171, Sides::random_maps);
    assert!(
        all < 25_000 || tally.seen[..=12].iter().all(|&n| n > 10),
        "an answer is rare"
    );
    tally.fail_on_differences();
}

#[test]
fn random_candidates() {
    random_calls(SHORT, cases() / 4, 1_000_187, Sides::random_mark).fail_on_differences();
}

/// Every k from 0 to 8 with targets around the limits, and the huge ones.
#[test]
fn hand_made_nets_with_all_k() {
    let targets: Vec<u32> = (0..=9).chain(31..=34).collect();
    all_maps(SHORT, &hand_made(), &targets, &[Call::Plain]);
}

/// Both courses on the same inputs: the same within both, and beyond 1, then 5.
#[test]
fn both_courses() {
    let rounds = cases() / 20;
    on_threads(|thread, threads| {
        let mut random = Random::new(seed().wrapping_mul(1_000_193).wrapping_add(thread));
        let mut sides = Sides::new(&mut random);
        let (mut cover, mut scratch) = ([vec![0; 1000], vec![0; 1000]], [Vec::new(), Vec::new()]);
        let (mut within, mut beyond) = (0, 0);
        while within + beyond < rounds / threads {
            let (net, pins) = some_net(&mut random);
            let k = some_k(&mut random, pins);
            let target = random.pick(&[0, 0, 1, 2, 3, 32, 33]);
            let lengths = (
                random.pick(&[961, 962, 963]),
                random.pick(&[SCRATCH_BYTES - 1, SCRATCH_BYTES, SCRATCH_BYTES + 3]),
            );
            let byte = random.byte();
            for side in 0..2 {
                cover[side] = vec![byte; lengths.0];
                scratch[side] = vec![byte; lengths.1];
            }
            let [a, b] = &mut cover;
            let [c, d] = &mut scratch;
            let long = kamfelu::map(&net, k, target, a, c);
            let short = kamfelu::short_map(&net, k, target, b, d);
            let many = net.get(1).is_some_and(|&gates| gates > 8);
            let early = matches!(long, Err(1..=3));
            if k <= 4 && (early || !many) {
                assert_eq!(
                    (long, &a, &c),
                    (short, &b, &d),
                    "net {net:?} k {k} target {target}"
                );
                within += 1;
            } else {
                let number = if k > 4 { 1 } else { 5 };
                assert_eq!(short, Err(number), "net {net:?} k {k} target {target}");
                assert!(b.iter().all(|&left| left == byte), "the area is kept");
                let cleared = if number == 1 { byte } else { 0 };
                assert!(d[..d.len().min(SCRATCH_BYTES)]
                    .iter()
                    .all(|&left| left == cleared));
                beyond += 1;
            }
            let record = &a[..long.unwrap_or(0)];
            let long = kamfelu::mark(&net, k, record, c);
            let short = kamfelu::short_mark(&net, k, record, d);
            if k <= 4 && (!many || matches!(long, Err(1..=3))) {
                assert_eq!(long, short, "net {net:?} k {k} record {record:?}");
            } else {
                assert_eq!(short, Err(if k > 4 { 1 } else { 5 }));
            }
        }
        assert!(within > 0 && beyond > 0);
        sides.tally.pairs += within + beyond;
        sides.tally
    });
}
