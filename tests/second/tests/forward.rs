//! Forward covers (document 02, E6): by hand, against covers enumerated outright, their boards against runs of
//! the net, and what map does to the areas.

mod common;

use common::areas::{self, all, least, refused_nets, Call};
use common::covers::{all_small_nets, count_covers, Tally};
use common::{
    forward, longest_line, mark, moving_net, net, net_a, net_b, net_bytes, net_c, section_bits,
    tiny_net, AND, SAME,
};
use second::board::board_runs_as_net;
use second::contents::{first_contents_with, CONTENTS_BYTES};
use second::damage::damaged_net;
use second::encode::{encode, encode_with_holes, random_section, with_section};
use second::generate::{random_net, Shape};
use second::labels::rise;
use second::loader::{image, LOADER_BYTES};
use second::mark::is_forward;
use second::run::cover_runs_as_net;
use second::{
    first_contents, least_labels, least_period, rare, read_net, read_record, Answer, Bench, Board,
    Cover, CutSets, Job, Limits, Mode, Outcome, Random, Stop,
};

const NOT: u64 = 1;

fn call(net: &[u8], k: u32, target: u32, lengths: [usize; 4]) -> Call {
    areas::call(Job::Forward, net, k, target, lengths)
}

/// The contents that map writes for a record of a net without its section, and the cover.
fn contents_of(net: &[u8], section: &[u8], k: u32, target: u32) -> (Vec<u8>, Cover) {
    areas::contents_of(Job::Forward, net, section, k, target)
}

#[test]
fn a_b_and_c() {
    // A: gate 4 keeps its own register, which holds it one step before step 0.
    for (past, first) in [(0, 0), (1, 1), (6, 0), (7, 1)] {
        let (contents, cover) = contents_of(&net_a(), &[0, 0, 0, 0, past], 2, 0);
        assert_eq!((contents, cover.period), (vec![first], 2));
    }
    // B: no register may move backward over gate 4.
    let b = read_net(&net_b(1), 2).expect("net B");
    assert_eq!(forward(&b, 2, 1), Err(Stop::Refused(22)));
    assert_eq!(least_period(&b, Mode::Forward, 2), Some(2));
    assert_eq!(least_period(&b, Mode::Plain, 2), Some(1));
    let (contents, cover) = contents_of(&net_b(1), &[0, 0, 0, 0, 5], 2, 0);
    assert_eq!((contents, cover.period), (vec![1], 2));
    assert!(cover.luts.iter().all(|lut| lut.lag == 0));
    assert_eq!(forward(&b, 3, 1).expect("one LUT").luts[0].lag, 0);
    // C: both registers move over the gate, and what they hold is the gate's value at step 0.
    let (contents, cover) = contents_of(&net_c(), &[1, 1, 0], 2, 1);
    assert_eq!((contents, cover.luts[0].lag), (vec![1], -1));
    for (section, first) in [([1, 0, 7], 0), ([6, 7, 7], 0), ([7, 3, 0], 1)] {
        assert_eq!(contents_of(&net_c(), &section, 2, 1).0, [first]);
    }
    // A second output reads input 0 through 2: its registers hold the input itself.
    let two = net_bytes(2, &[(&[(0, 1), (1, 1)], AND)], &[(2, 0), (0, 2)]);
    assert_eq!(contents_of(&two, &[1, 3, 7], 2, 1).0, [1, 1, 0]);
    assert_eq!(contents_of(&two, &[3, 1, 7], 2, 1).0, [1, 1, 1]);
}

#[test]
fn newest_first() {
    // The output reads gate 1 through three registers, then through one, where two have moved over the gate.
    let behind = net_bytes(1, &[(&[(0, 0)], SAME)], &[(1, 3)]);
    let over = net_bytes(1, &[(&[(0, 2)], NOT)], &[(1, 1)]);
    for input in 0..8 {
        for gate in 0..8 {
            let bit = |byte: u8, at: u8| byte >> at & 1;
            let section = [input, gate];
            let (contents, cover) = contents_of(&behind, &section, 2, 1);
            assert_eq!(contents, [0, 1, 2].map(|at| bit(gate, at)));
            assert_eq!(cover.luts[0].lag, 0);
            let (contents, cover) = contents_of(&over, &section, 2, 1);
            let past = [1 - bit(input, 0), 1 - bit(input, 1), bit(gate, 0)];
            assert_eq!((contents, cover.luts[0].lag), (past.to_vec(), -2));
        }
    }
}

/// 32 gates in a line, each behind three registers, and three at the output: one LUT with lag -96, and 99
/// registers behind it, which hold what the section has, node by node.
#[test]
fn the_longest_connection() {
    let line = longest_line();
    let mut random = Random::new(71);
    for target in [0, 1, 2, 31, 32] {
        let section = random_section(33, &mut random);
        let (contents, cover) = contents_of(&line, &section, 2, target);
        assert_eq!((cover.luts.len(), cover.luts[0].lag), (1, -96));
        assert_eq!(contents, section_bits(&section));
    }
}

#[test]
fn rare_nets() {
    let mut random = Random::new(72);
    for rare in rare::all() {
        let (net, k) = (read_net(&rare.net, rare.k).expect("a net"), rare.k);
        assert_eq!(least_period(&net, Mode::Forward, k), Some(rare.least));
        for target in 1..=rare.least + 1 {
            let Ok(cover) = forward(&net, k, target) else {
                assert!(target < rare.least);
                continue;
            };
            assert!(target >= rare.least && is_forward(&net, &cover));
            let section = random_section(net.nodes(), &mut random);
            let contents = first_contents(&net, &section, &cover);
            let bench = Bench::new(&net, &section);
            assert!(board_runs_as_net(
                bench,
                &cover,
                &contents,
                300,
                &mut random
            ));
        }
    }
}

#[test]
fn labels_of_rare_nets() {
    let net = read_net(&rare::kept_cut().net, 3).expect("a net");
    assert_eq!(forward(&net, 3, 1), Err(Stop::Refused(22)));
    // By heights alone these labels may stand; by the members none may.
    let cuts = CutSets::new(&net, 3, Limits::default()).expect("cuts");
    let wrong = vec![0, 0, 1, 1, 0, 1];
    let stays = |mode| rise(&net, mode, &cuts, 1, wrong.clone());
    assert_eq!(stays(Mode::Plain), Some(wrong.clone()));
    assert_eq!(stays(Mode::Forward), None);

    let net = read_net(&rare::smaller_period().net, 2).expect("a net");
    let labels = |phi| match least_labels(&net, Mode::Forward, 2, phi) {
        Outcome::Labels(labels) => labels,
        other => panic!("{other:?}"),
    };
    assert_eq!(labels(1)[6], -1);
    let cover = forward(&net, 2, 2).expect("a cover");
    assert!(is_forward(&net, &cover));
    assert!(labels(2)
        .iter()
        .zip(labels(1))
        .all(|(&two, one)| two <= one));
}

#[test]
fn targets_met_by_forward_covers_are_those_reached_by_labels() {
    let mut random = Random::new(73);
    let mut tally = Tally::default();
    for _ in 0..12_000 {
        let (net, k) = tiny_net(&mut random);
        tally.compare(&net, Mode::Forward, k);
    }
    assert!(tally.met > 10_000 && tally.unmet > 1000, "{tally:?}");
}

/// The rare nets, where their cones are not too many, and random nets with many registers.
#[test]
fn larger_nets() {
    let mut tally = Tally::default();
    for rare in rare::all() {
        let net = read_net(&rare.net, rare.k).expect("a net");
        tally.compare_within(&net, Mode::Forward, rare.k, 40_000);
    }
    assert!(
        tally.met > 30 && tally.unmet > 1 && tally.left <= 6,
        "{tally:?}"
    );
    let mut random = Random::new(79);
    for _ in 0..1500 {
        let shape = Shape {
            inputs: (1, 3),
            gates: (4, 6),
            outputs: (1, 2),
            pins: (1, 2),
            count: random.pick(&[1, 2, 3]),
            registers: 50,
            back: random.pick(&[10, 30]),
            twin: 0,
            input: 20,
        };
        tally.compare(&random_net(&mut random, &shape), Mode::Forward, 2);
    }
    assert!(tally.met > 5000 && tally.unmet > 200, "{tally:?}");
}

#[test]
fn all_small_nets_of_two_and_three_gates() {
    all_small_nets(Mode::Forward);
}

#[test]
fn no_forward_cover_of_the_marker_is_below_the_least_period() {
    let mut random = Random::new(74);
    let (mut nets, mut good) = (0, 0);
    for _ in 0..3000 {
        let (net, k) = tiny_net(&mut random);
        if let Some(covers) = count_covers(&net, Mode::Forward, k) {
            nets += 1;
            good += covers;
        }
    }
    assert!(nets > 1000 && good > 5000, "{nets} {good}");
}

#[test]
fn boards_run_as_their_nets() {
    let mut random = Random::new(75);
    let (mut moved, mut wrong) = (0, 0);
    for _ in 0..1500 {
        let (net, k, target) = moving_net(&mut random, 12);
        let cover = forward(&net, k, target).expect("a cover");
        assert!(is_forward(&net, &cover));
        let section = random_section(net.nodes(), &mut random);
        let mut contents = first_contents(&net, &section, &cover);
        let steps = 300;
        let agree = |contents: &[u8], random: &mut Random| {
            let bench = Bench::new(&net, &section);
            board_runs_as_net(bench, &cover, contents, steps, random)
        };
        assert!(agree(&contents, &mut random), "{net:?} {k} {cover:?}");
        assert!(cover_runs_as_net(&net, &cover, 8, &mut random));
        moved += usize::from(cover.luts.iter().any(|lut| lut.lag < 0));
        // Other contents are seldom right.
        if !contents.is_empty() {
            let at = random.below(contents.len());
            contents[at] ^= 1;
            wrong += usize::from(!agree(&contents, &mut random));
        }
    }
    assert!(moved > 500 && wrong > 500, "{moved} {wrong}");
}

/// "no input from step 0 on is needed", and no step before the section.
#[test]
fn contents_from_the_section_alone() {
    let mut random = Random::new(76);
    let mut most = 0;
    for _ in 0..3000 {
        let (net, k, target) = moving_net(&mut random, 10);
        let cover = forward(&net, k, target).expect("a cover");
        let section = random_section(net.nodes(), &mut random);
        let contents = first_contents(&net, &section, &cover);
        assert!(contents.len() <= CONTENTS_BYTES);
        most = most.max(contents.len());
        for _ in 0..3 {
            let other = first_contents_with(&net, &section, &cover, |_| random.word() as u16);
            assert_eq!(contents, other, "{net:?} {k} {cover:?}");
        }
    }
    assert!(most > 50, "{most}");
}

/// A period that forward covers meet is met by larger ones too, and by covers; mark accepts each record.
#[test]
fn forward_records_and_mark() {
    let mut random = Random::new(77);
    let mut later = 0;
    for _ in 0..800 {
        let k = random.within(2, 4);
        let shape = Shape {
            inputs: (4, 8),
            twin: 0,
            ..Shape::any(&mut random, 8, k)
        };
        let mut net = random_net(&mut random, &shape);
        for output in &mut net.outputs {
            output.count = random.below(4) as u32;
        }
        let (bytes, k) = (encode_with_holes(&net, &mut random), k as u32);
        let [plain, forward] = [Mode::Plain, Mode::Forward].map(|mode| least_period(&net, mode, k));
        let (plain, least) = (plain.expect("a period"), forward.expect("a period"));
        assert!(plain <= least && least <= net.gates.len() as u32);
        later += usize::from(plain < least);
        for target in 0..=net.gates.len() as u32 + 1 {
            let told = call(&bytes, k, target, areas::least(0, 0));
            let period = if target == 0 { least } else { target };
            if period < least {
                assert_eq!(told.answer, Answer::Refused(22));
                continue;
            }
            let Answer::Done(length) = told.answer else {
                panic!("{:?}", told.answer);
            };
            let record = &told.cover[..length as usize];
            assert_eq!(mark(&bytes, k, record), Answer::Done(period - plain));
            assert!(is_forward(
                &net,
                &read_record(&net, k, record).expect("a record")
            ));
        }
    }
    assert!(later > 20, "{later}");
}

#[test]
fn the_order_of_refusals() {
    let refused = |net: &[u8], k, target, lengths| call(net, k, target, lengths).refused();
    let [cover, scratch, loader, contents] = least(255, CONTENTS_BYTES);
    assert_eq!(refused(&[], 7, 33, [0, 0, 255, 1]), 1);
    assert_eq!(refused(&[], 6, 33, [0, 0, 255, 1]), 2);
    for lengths in [
        [0, 0, 0, 0],
        [cover - 1, scratch, loader, contents],
        [cover, scratch - 1, loader, contents],
        [cover, scratch + 2, loader, contents - 1],
        [cover, scratch, 0, 1],
    ] {
        assert_eq!(refused(&[], 6, 32, lengths), 3);
        assert_eq!(refused(&net_b(1), 2, 1, lengths), 3);
    }
    for (net, number) in refused_nets() {
        for contents in [0, CONTENTS_BYTES, CONTENTS_BYTES + 1] {
            for short in [1, 255] {
                assert_eq!(
                    refused(&net, 2, 1, [cover, scratch + 2, short, contents]),
                    20
                );
            }
            for loader in [0, LOADER_BYTES, 300] {
                // 21 comes before 22: B has no section.
                let number = if number == 22 && contents > 0 {
                    21
                } else {
                    number
                };
                assert_eq!(
                    refused(&net, 2, 1, [cover, scratch + 2, loader, contents]),
                    number
                );
            }
        }
    }
    // With a section 22 is told, or the cover written; without one and without contents too.
    let with = with_section(&net_b(1), &[0; 5]);
    assert_eq!(refused(&with, 2, 1, least(256, CONTENTS_BYTES)), 22);
    assert_eq!(refused(&net_b(1), 2, 2, least(0, CONTENTS_BYTES)), 21);
    assert_eq!(refused(&net_b(1), 2, 0, least(0, CONTENTS_BYTES)), 21);
    for (net, contents) in [(&with, 0), (&with, CONTENTS_BYTES), (&net_b(1), 0)] {
        for target in [0, 2, 32] {
            let told = call(net, 2, target, least(256, contents));
            assert!(matches!(told.answer, Answer::Done(_)));
        }
    }
}

/// Each area's own part is written, all else kept, whichever areas are lent beside it; the section changes no
/// cover.
#[test]
fn areas_beside_each_other() {
    let mut random = Random::new(78);
    let mut done = 0;
    for _ in 0..1500 {
        let k = random.within(2, 6);
        let shape = Shape::any(&mut random, 8, k);
        let net = random_net(&mut random, &shape);
        let section = random_section(net.nodes(), &mut random);
        let mut bytes = with_section(&encode(&net), &section);
        if random.chance(30) {
            bytes = damaged_net(&mut random, &bytes);
        }
        let (k, target) = (k as u32, random.pick(&[0, 0, 1, 2, 33]));
        let bare = call(&bytes, k, target, least(0, 0));
        let full = call(
            &bytes,
            k,
            target,
            least(LOADER_BYTES + 1, CONTENTS_BYTES + 1),
        );
        for (loader, contents) in [(0, CONTENTS_BYTES + 1), (LOADER_BYTES + 1, 0)] {
            let told = call(&bytes, k, target, least(loader, contents));
            let same = told.answer == full.answer && told.cover == full.cover;
            // Without contents a damaged net may do without its section.
            assert!(same || contents == 0 && full.answer == Answer::Refused(21));
            assert!(loader == 0 || told.loader == full.loader || !same);
            assert!(contents == 0 || told.contents == full.contents);
        }
        let Answer::Done(length) = full.answer else {
            full.refused();
            continue;
        };
        assert!(bare.answer == full.answer && bare.cover == full.cover);
        let (net, section) = second::read_with_section(&bytes, k).expect("a net");
        let record = &full.cover[..length as usize];
        let cover = read_record(&net, k, record).expect("a record");
        let image = image(&cover);
        let first = first_contents(&net, &section.expect("a section"), &cover);
        assert!(full.loader.starts_with(&image) && all(&full.loader[image.len()..], 5));
        assert!(full.contents.starts_with(&first) && all(&full.contents[first.len()..], 3));
        assert!(all(&full.cover[record.len()..], 7) && all(&full.scratch, 0));
        let plain = call(&encode(&net), k, target, least(0, 0));
        assert!(plain == bare);
        done += 1;
    }
    assert!(done > 500, "{done}");
}

/// A net that no cover can speed up, with its outputs read off the board step by step.
#[test]
fn a_board_by_hand() {
    // Gate 1 = not(1:1), which an output reads: a bit that turns over at each step.
    let turning = net(1, &[(&[(1, 1), (0, 0)], 1)], &[(1, 0)]);
    let cover = forward(&turning, 2, 0).expect("a cover");
    let contents = first_contents(&turning, &[0, 1], &cover);
    assert_eq!(contents, [1]);
    let mut board = Board::new(&turning, &cover, &contents);
    let steps: Vec<bool> = (0..4).flat_map(|_| board.step(0)).collect();
    assert_eq!(steps, [false, true, false, true]);
    assert_eq!(board.step(1), [false]);
}
