//! Change-over on a running unit (document 02, E7): contents by hand, against values looked up in the whole run,
//! against a board that ran all along; boards that take over; refusals and areas.

mod common;

use common::areas::{self, all, least, refused_nets, Call};
use common::told::{pairs, Told};
use common::{
    forward, longest_line, moving_net, net_a, net_b, net_bytes, net_c, section_bits, AND,
};
use second::board::board_runs_as_net;
use second::contents::CONTENTS_BYTES;
use second::damage::damaged_net;
use second::encode::{encode, random_section, with_section};
use second::generate::{random_net, Shape};
use second::loader::LOADER_BYTES;
use second::{
    contents_after, first_contents, rare, read_net, Answer, Bench, Board, Cover, Job, Net, Random,
};

fn call(net: &[u8], k: u32, target: u32, pairs: &[u8], lengths: [usize; 4]) -> Call {
    areas::call(Job::ChangeOver(pairs), net, k, target, lengths)
}

/// The contents of a change-over at k 2 and target 1.
fn contents(net: &[u8], section: &[u8], pairs: &[u8]) -> Vec<u8> {
    areas::contents_of(Job::ChangeOver(pairs), net, section, 2, 1).0
}

fn some_bytes(random: &mut Random, number: usize) -> Vec<u8> {
    (0..number).map(|_| random.byte()).collect()
}

/// Lengths of pairs in bytes: 0 to 4 steps and more, a lone last byte behind half of them.
fn some_pairs(random: &mut Random) -> Vec<u8> {
    let steps = random.pick(&[0, 1, 2, 3, 4, 5, 17, 60]);
    let lone = random.below(2);
    some_bytes(random, 2 * steps + lone)
}

#[test]
fn c_by_hand() {
    // The output's register holds gate 2 at the step of the change-over: the and of both inputs one step before.
    let c = |pairs: &[u8]| contents(&net_c(), &[1, 1, 0], pairs);
    for (pairs, first) in [
        (&[][..], 1),
        (&[2], 1),
        (&[2, 0], 0),
        (&[2, 0, 9], 0),
        (&[3, 0], 1),
        (&[0xff, 0xff], 1),
        (&[0xfe, 0xff], 0),
        (&[0, 3], 0),
        (&[2, 0, 9, 0], 0),
        (&[2, 0, 3, 0], 1),
        (&[3, 0, 2, 0], 0),
        (&[0, 0, 1, 0, 3, 0, 1], 1),
    ] {
        assert_eq!(c(pairs), [first], "{pairs:?}");
    }
    // A second output reads input 0 through 2: input 0 one step before, then two.
    let two = net_bytes(2, &[(&[(0, 1), (1, 1)], AND)], &[(2, 0), (0, 2)]);
    let steps = pairs(&[3, 2, 1, 0, 3]);
    let expected = [
        [1, 1, 0],
        [1, 1, 1],
        [0, 0, 1],
        [0, 1, 0],
        [0, 0, 1],
        [1, 1, 0],
    ];
    for (step, contents_then) in expected.iter().enumerate() {
        for lone in 0..2 {
            let bytes = &[&steps[..], &[0]].concat()[..2 * step + lone];
            assert_eq!(contents(&two, &[1, 3, 7], bytes), contents_then);
        }
    }
}

/// Net A's register holds gate 4 one step before; the section's later bits play no part after a step.
#[test]
fn a_by_hand() {
    // 2 = and(0, 1), 4 = not(xor(2, 4:1)): with gate 4 at 0 before step 0.
    let steps = pairs(&[0, 1, 2, 3, 3, 0]);
    for (step, held) in [0, 1, 0, 1, 1, 1, 0].into_iter().enumerate() {
        let job = Job::ChangeOver(&steps[..2 * step]);
        let (contents, cover) = areas::contents_of(job, &net_a(), &[0, 0, 7, 7, 6], 2, 0);
        assert_eq!((contents, cover.period), (vec![held], 2));
    }
}

/// One LUT with lag -96 and 99 registers behind it, through which the input's values pass: those of the last steps,
/// the newest first, then what the section has.
#[test]
fn the_longest_connection() {
    let mut random = Random::new(81);
    for steps in [0, 1, 2, 3, 4, 50, 95, 96, 97, 98, 99, 100, 1000] {
        let section = random_section(33, &mut random);
        let lone = random.below(2);
        let pairs = some_bytes(&mut random, 2 * steps + lone);
        let inputs = pairs.chunks_exact(2).rev().map(|pair| pair[0] & 1);
        let passed: Vec<u8> = inputs.chain(section_bits(&section)).take(99).collect();
        assert_eq!(contents(&longest_line(), &section, &pairs), passed);
    }
}

/// Register i of a connection from u with lag q: u's value at step T - i - q, looked up in the whole run. Where
/// that is not before step T any inputs do.
fn looked_up(
    net: &Net,
    section: &[u8],
    cover: &Cover,
    steps: &[u16],
    random: &mut Random,
) -> Vec<u8> {
    let now = steps.len() as i64;
    let further = (0..100).map(|_| random.word() as u16);
    let inputs: Vec<u16> = steps.iter().copied().chain(further).collect();
    let mut told = Told::new(net, section, &inputs);
    for step in 0..inputs.len() as i64 {
        for node in 0..net.nodes() {
            told.value(node, step);
        }
    }
    let mut bytes = Vec::new();
    for (source, registers) in cover.connections(net).expect("LUTs") {
        let lag = cover.lag(net, source).expect("a LUT");
        bytes.extend((1..=registers).map(|i| u8::from(told.value(source, now - i - lag))));
    }
    bytes
}

#[test]
fn contents_are_values_of_the_run() {
    let mut random = Random::new(82);
    let mut later = 0;
    for round in 0..1500 {
        let (net, k, target) = moving_net(&mut random, 12);
        let cover = forward(&net, k, target).expect("a cover");
        let section = random_section(net.nodes(), &mut random);
        let pairs = match round % 100 {
            0 => some_bytes(&mut random, 2000),
            1 => some_bytes(&mut random, 2001),
            _ => some_pairs(&mut random),
        };
        let steps: Vec<u16> = second::bench::steps(&pairs).collect();
        assert_eq!(steps.len(), pairs.len() / 2);
        let contents = contents_after(&net, &section, &cover, &pairs);
        let expected = looked_up(&net, &section, &cover, &steps, &mut random);
        assert_eq!(contents, expected, "{net:?} {k} {cover:?} {pairs:?}");
        later += usize::from(contents != first_contents(&net, &section, &cover));
    }
    assert!(later > 700, "{later}");
}

/// "A change-over at step 0 must give E6's contents", and all else is E6's at any step: pairs change no cover.
#[test]
fn step_0_is_forward_map() {
    let mut random = Random::new(83);
    let mut done = 0;
    for _ in 0..1000 {
        let k = random.within(2, 5);
        let shape = Shape::any(&mut random, 8, k);
        let net = random_net(&mut random, &shape);
        let mut bytes = with_section(&encode(&net), &random_section(net.nodes(), &mut random));
        if random.chance(30) {
            bytes = damaged_net(&mut random, &bytes);
        }
        let (k, target) = (k as u32, random.pick(&[0, 0, 1, 2, 33]));
        let loader = random.pick(&[0, LOADER_BYTES, LOADER_BYTES + 1, 255]);
        let lengths = least(loader, CONTENTS_BYTES + 1);
        let first = areas::call(Job::Forward, &bytes, k, target, lengths);
        for pairs in [&[][..], &[random.byte()]] {
            assert!(call(&bytes, k, target, pairs, lengths) == first);
        }
        let later = call(&bytes, k, target, &some_pairs(&mut random), lengths);
        assert!(later.answer == first.answer && later.cover == first.cover);
        assert!(later.scratch == first.scratch && later.loader == first.loader);
        if matches!(first.answer, Answer::Done(_)) {
            done += 1;
        } else {
            later.refused();
        }
    }
    assert!(done > 300, "{done}");
}

/// A board that started at step 0 and the net, side by side: what its registers hold at each step is what a
/// change-over there gives.
#[test]
fn contents_are_those_of_a_board_that_ran() {
    let mut random = Random::new(84);
    for _ in 0..600 {
        let (net, k, target) = moving_net(&mut random, 12);
        let cover = forward(&net, k, target).expect("a cover");
        let section = random_section(net.nodes(), &mut random);
        let pairs = some_bytes(&mut random, 2 * 40);
        let mut board = Board::new(&net, &cover, &first_contents(&net, &section, &cover));
        for (step, inputs) in second::bench::steps(&pairs).enumerate() {
            let contents = contents_after(&net, &section, &cover, &pairs[..2 * step]);
            assert_eq!(board.contents(), contents, "{net:?} {k} {cover:?}");
            board.step(inputs);
        }
    }
}

/// "From that step the board's outputs go on as the old net's would have done, for all later inputs."
#[test]
fn boards_go_on_as_their_nets() {
    let mut random = Random::new(85);
    let (mut moved, mut wrong) = (0, 0);
    for round in 0..1200 {
        let (net, k, target) = moving_net(&mut random, 12);
        let cover = forward(&net, k, target).expect("a cover");
        let section = random_section(net.nodes(), &mut random);
        let pairs = match round % 50 {
            0 => some_bytes(&mut random, 2001),
            _ => some_pairs(&mut random),
        };
        let mut contents = contents_after(&net, &section, &cover, &pairs);
        let goes_on = |contents: &[u8], random: &mut Random| {
            let bench = Bench::after(&net, &section, &pairs);
            board_runs_as_net(bench, &cover, contents, 300, random)
        };
        assert!(goes_on(&contents, &mut random), "{net:?} {k} {cover:?}");
        moved += usize::from(cover.luts.iter().any(|lut| lut.lag < 0));
        // Other contents are seldom right.
        if !contents.is_empty() {
            let at = random.below(contents.len());
            contents[at] ^= 1;
            wrong += usize::from(!goes_on(&contents, &mut random));
        }
    }
    assert!(moved > 400 && wrong > 400, "{moved} {wrong}");
}

#[test]
fn boards_of_rare_nets_go_on() {
    let mut random = Random::new(86);
    for rare in rare::all() {
        let net = read_net(&rare.net, rare.k).expect("a net");
        let cover = forward(&net, rare.k, 0).expect("a cover");
        for steps in [0, 1, 2, 3, 4, 1000] {
            let section = random_section(net.nodes(), &mut random);
            let pairs = some_bytes(&mut random, 2 * steps);
            let contents = contents_after(&net, &section, &cover, &pairs);
            let bench = Bench::after(&net, &section, &pairs);
            assert!(board_runs_as_net(
                bench,
                &cover,
                &contents,
                300,
                &mut random
            ));
        }
    }
}

#[test]
fn the_order_of_refusals() {
    for pairs in [&[][..], &[1], &[2, 0], &[2, 0, 9], &[7; 2000]] {
        let refused =
            |net: &[u8], k, target, lengths| call(net, k, target, pairs, lengths).refused();
        let [cover, scratch, loader, contents] = least(255, CONTENTS_BYTES);
        assert_eq!(refused(&[], 7, 33, [0, 0, 255, 0]), 1);
        assert_eq!(refused(&[], 6, 33, [0, 0, 255, 0]), 2);
        for lengths in [
            [0, 0, 0, 0],
            [cover - 1, scratch, loader, contents],
            [cover, scratch - 1, loader, contents],
            [cover, scratch + 2, loader, contents - 1],
            [cover, scratch, loader, 0],
            [cover, scratch, 256, 0],
            [cover, scratch, 0, 0],
            [cover, scratch, 0, 1],
        ] {
            assert_eq!(refused(&[], 6, 32, lengths), 3);
            assert_eq!(refused(&net_b(1), 2, 1, lengths), 3);
        }
        for (net, number) in refused_nets() {
            for contents in [CONTENTS_BYTES, CONTENTS_BYTES + 1] {
                let told = |loader| refused(&net, 2, 1, [cover, scratch + 2, loader, contents]);
                assert_eq!([1, 255].map(told), [20; 2]);
                // 21 comes before 22: B has no section.
                let number = if number == 22 { 21 } else { number };
                assert_eq!([0, LOADER_BYTES, 300].map(told), [number; 3]);
            }
        }
        let with = with_section(&net_b(1), &[0; 5]);
        for contents in [CONTENTS_BYTES, CONTENTS_BYTES + 1] {
            assert_eq!(refused(&with, 2, 1, least(256, contents)), 22);
            assert_eq!(refused(&net_b(1), 2, 0, least(0, contents)), 21);
            for target in [0, 2, 32] {
                let told = call(&with, 2, target, pairs, least(256, contents));
                assert!(matches!(told.answer, Answer::Done(_)));
                // One register, at the output.
                assert!(told.contents[0] <= 1 && all(&told.contents[1..], 3));
            }
        }
    }
}
