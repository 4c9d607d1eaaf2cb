//! The program `bench` (document 02, E5) over standard input and output, against the second mapper's text.

use library::bench::{expected, input, of_32_gates, random_bench, stored};
use library::nets::{
    c_with_section, largest_record, net, net_a, net_b, net_c, with_sections, Read, AND,
};
use library::programs::{printed, printed_from};
use library::tally::{seed, Tally};
use second::bench::MOST_STEPS;
use second::encode::{encode, random_section, with_section};
use second::generate::{random_net, Shape};
use second::Random;
use std::fs::{self, File};
use std::path::Path;

const XOR: u64 = 6;

fn same(given: &[u8]) -> String {
    let text = printed("bench", given);
    let end = given.len().min(1000);
    assert_eq!(text, expected(given), "{:02x?}", &given[..end]);
    text
}

fn bench(k: u8, net: &[u8], behind: &[u8]) -> String {
    same(&input(k, net, behind))
}

/// A net that counts ones: gate 1 = xor(0, 1:1), with a section.
fn odd() -> Vec<u8> {
    let gate: (&[Read], u64) = (&[(0, 0), (1, 1)], XOR);
    with_section(&encode(&net(1, &[gate], &[(1, 0)])), &[0, 0])
}

/// The files of the gate are the generator's and the second mapper's.
#[test]
fn stored_input() {
    let folder = concat!(env!("CARGO_MANIFEST_DIR"), "/../../crates/bench/");
    let file = |name: &str| fs::read(folder.to_string() + name).expect("a stored file");
    let given = stored();
    assert!(
        file("stdin") == given && file("stdout") == expected(&given).as_bytes(),
        "cargo run --release -p library --bin batch writes the files"
    );
    assert_eq!(same(&given).lines().count(), 300);
}

#[test]
fn examples() {
    let c = c_with_section();
    let file = concat!(env!("CARGO_MANIFEST_DIR"), "/../../examples/bench-c.bin");
    assert_eq!(same(&fs::read(file).expect("the example")), "1\n0\n1\n");
    // Gate 2 at step 0 is and(1, 1), not its section bit.
    assert_eq!(bench(2, &c, &[2, 0]), "1\n");
    assert_eq!(bench(2, &c, &[2, 0, 3, 0, 0, 0]), "1\n0\n1\n");
    // A lone last byte is no step; no step prints nothing.
    assert_eq!(bench(2, &c, &[2, 0, 9]), "1\n");
    assert_eq!(bench(2, &c, &[2]), "");
    assert_eq!(bench(2, &c, &[]), "");
    // Higher bits are ignored.
    assert_eq!(bench(2, &c, &[0xff, 0xff, 0xfc, 0xff]), "1\n1\n");
    // A second output reads input 0 through 2: its values at the steps -2, -1 and 0.
    let two: (&[Read], u64) = (&[(0, 1), (1, 1)], AND);
    let two = with_section(&encode(&net(2, &[two], &[(2, 0), (0, 2)])), &[1, 3, 7]);
    assert_eq!(bench(2, &two, &[3, 0, 3, 0, 0, 0]), "10\n11\n11\n");
    assert_eq!(bench(2, &odd(), &[1, 0, 0, 0, 1, 0]), "1\n1\n0\n");
    // Each section of net A, and each input.
    for byte in 0..=7 {
        let a = with_section(&net_a(), &[7 - byte, byte, byte, 0, byte]);
        bench(2, &a, &[3, 0, 0, 0, 1, 0, 2, 0, 3, 0]);
    }
}

#[test]
fn refusals() {
    let refused = |number: u8| format!("refused {number}\n");
    for k in [0, 1, 7, 8, 255] {
        for net in [c_with_section(), net_c(), Vec::new()] {
            assert_eq!(bench(k, &net, &[2, 0]), refused(1));
        }
    }
    // Loops, gates from nowhere and gates that lead nowhere: with a section and without.
    let reads: [(Read, Read, u8); 3] = [
        ((1, 0), (1, 0), 9),
        ((1, 1), (1, 0), 10),
        ((0, 0), (0, 0), 11),
    ];
    for (pin, output, number) in reads {
        let net = encode(&net(1, &[(&[pin], 2)], &[output]));
        assert_eq!(bench(2, &net, &[0, 0]), refused(number));
        let with = |section: &[u8]| with_section(&net, section);
        assert_eq!(bench(2, &with(&[7, 7]), &[0, 0]), refused(number));
        // The walk comes first.
        assert_eq!(bench(2, &with(&[7]), &[0, 0]), refused(4));
        assert_eq!(bench(2, &with(&[7, 8]), &[0, 0]), refused(6));
        assert_eq!(bench(2, &with(&[7, 7, 7]), &[0, 0]), refused(8));
    }
    for first in [0x80, 0x91, 0x11, 0xff, 0x41] {
        assert_eq!(bench(2, &[first, 1, 1], &[0, 0]), refused(5));
    }
    let wide: (&[Read], u64) = (&[(0, 0), (0, 1), (0, 2)], 0x96);
    let wide = with_section(&encode(&net(1, &[wide], &[(1, 0)])), &[0, 0]);
    assert_eq!(bench(2, &wide, &[0, 0]), refused(7));
    assert_eq!(bench(3, &wide, &[0, 0]), "0\n");
    // 21 behind them all.
    for net in [net_a(), net_b(0), net_b(1), net_c()] {
        for behind in [&[][..], &[0], &[0, 0]] {
            assert_eq!(bench(2, &net, behind), refused(21));
        }
    }
    for net in with_sections() {
        for k in 1..=7 {
            bench(k, &net, &[1, 2, 3, 4, 5, 6, 7]);
        }
    }
    assert_eq!(bench(6, &encode(&largest_record()), &[]), refused(21));
}

#[test]
fn cut_off() {
    // k or a byte of the length is missing.
    assert_eq!(same(&[]), "refused 1\n");
    assert_eq!(same(&[7]), "refused 1\n");
    for given in [&[2][..], &[2, 0], &[2, 16], &[2, 0, 0], &[2, 16, 0]] {
        assert_eq!(same(given), "refused 4\n");
    }
    // Every early end of some inputs.
    let mut random = Random::new(9);
    let shape = Shape::any(&mut random, 6, 3);
    let net = random_net(&mut random, &shape);
    let some = with_section(&encode(&net), &random_section(net.nodes(), &mut random));
    let a = with_section(&net_a(), &[1, 2, 3, 4, 5]);
    for (k, net) in [(2, c_with_section()), (2, a), (3, some), (2, net_a())] {
        let whole = input(k, &net, &[2, 0, 3, 1, 0, 0, 1]);
        for end in 0..=whole.len() {
            same(&whole[..end]);
        }
    }
    // Each byte of an input with some values.
    let whole = input(2, &c_with_section(), &[2, 0, 3, 0]);
    for at in 0..whole.len() {
        for value in [0, 1, 2, 3, 7, 8, 16, 128, 130, 255] {
            let mut other = whole.clone();
            other[at] = value;
            same(&other);
        }
    }
}

/// A length beyond the input: the net is what is there, and there are no steps.
#[test]
fn lengths() {
    let c = c_with_section();
    let given = |length: usize, behind: &[u8]| {
        let length = (length as u16).to_le_bytes();
        same(&[&[2], &length[..], &c, behind].concat())
    };
    for length in [c.len() + 1, 300, 803, 804, 65_535] {
        assert_eq!(given(length, &[]), "");
    }
    assert_eq!(given(c.len(), &[2, 0]), "1\n");
    assert_eq!(given(c.len() - 1, &[2, 0]), "refused 4\n");
    for length in [c.len() + 1, c.len() + 2, 803, 804, 65_535] {
        assert_eq!(given(length, &[2, 0]), "refused 8\n");
        assert_eq!(given(length, &[0; 70_000]), "refused 8\n");
    }
    assert_eq!(given(0, &[2, 0]), "refused 4\n");
}

#[test]
fn random_inputs() {
    let mut random = Random::new(seed().wrapping_mul(1_000_249));
    let mut tally = Tally::default();
    for _ in 0..3000 {
        random_bench(&mut tally, &mut random);
    }
    tally.print();
    let wanted = [0, 1].into_iter().chain(4..=11).chain([21]);
    let rare: Vec<usize> = wanted.filter(|&number| tally.seen[number] < 10).collect();
    assert!(rare.is_empty(), "rare answers {rare:?}");
    tally.fail_on_differences();
}

/// 65,535 steps are run, and what stands behind them changes nothing.
#[test]
fn the_last_step() {
    let mut random = Random::new(10);
    for net in [odd(), of_32_gates(&mut random)] {
        let bytes: Vec<u8> = (0..2 * MOST_STEPS + 5).map(|_| random.byte()).collect();
        let text = bench(6, &net, &bytes[..2 * MOST_STEPS]);
        assert_eq!(text.lines().count(), MOST_STEPS);
        for end in 2 * MOST_STEPS + 1..=bytes.len() {
            assert!(bench(6, &net, &bytes[..end]) == text);
        }
        let less = bench(6, &net, &bytes[..2 * MOST_STEPS - 1]);
        assert_eq!(less.lines().count(), MOST_STEPS - 1);
        assert!(text.starts_with(&less));
    }
}

/// Of standard input 3 bytes are asked for, the net's, and 131,070.
#[test]
fn later_bytes_unread() {
    let folder = Path::new(env!("CARGO_TARGET_TMPDIR"));
    let place = |name: &str, given: &[u8]| {
        let path = folder.join(name);
        fs::write(&path, given).expect("a file");
        let (text, place) = printed_from("bench", File::open(&path).expect("the file"));
        fs::remove_file(&path).expect("the file");
        assert!(text == expected(given));
        (text, place as usize)
    };
    let mut random = Random::new(11);
    for net in [odd(), of_32_gates(&mut random)] {
        let most = 3 + net.len() + 2 * MOST_STEPS;
        for steps in [
            0,
            1,
            100,
            MOST_STEPS - 1,
            MOST_STEPS,
            MOST_STEPS + 1,
            200_000,
        ] {
            let given = input(6, &net, &vec![1; 2 * steps]);
            let (text, place) = place("steps", &given);
            assert_eq!(text.lines().count(), steps.min(MOST_STEPS));
            assert_eq!(place, given.len().min(most), "{steps} steps");
        }
    }
    // A refusal may come before all is read, and no more is read than for a run.
    let c = c_with_section();
    for (k, net) in [(1, &c), (2, &net_c()), (2, &vec![0; 20]), (2, &vec![])] {
        let given = input(k, net, &vec![0; 300_000]);
        let (text, place) = place("refused", &given);
        assert!(text.starts_with("refused ") && place <= 3 + net.len() + 2 * MOST_STEPS);
    }
    let given = [&[2, 255, 255], &c[..], &vec![0; 300_000]].concat();
    let (text, place) = place("long", &given);
    assert_eq!(text, "refused 8\n");
    assert!(place <= 3 + 65_535 + 2 * MOST_STEPS);
}
