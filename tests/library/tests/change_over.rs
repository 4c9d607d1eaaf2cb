//! The change-over (document 02, E7) against the second mapper's: answers, cover areas, loader areas, contents areas
//! and scratch, whole; boards that take over with the library's own records and contents, against nets that ran all
//! along.

use kamfelu::{connections, CONTENTS_AREA, COVER_AREA, LOADER_AREA, SCRATCH};
use library::areas::Areas;
use library::bench::of_32_gates;
use library::compare::{all_lengths, all_maps, random_calls, Call, Sides};
use library::inputs::{some_forward_net, some_k, some_pairs};
use library::nets::{
    c_with_section, c_with_two_outputs, for_forward, hand_made, longest_connection,
    mapped_and_refused, net_a, net_b, real_with_sections,
};
use library::tally::{cases, each_thread, seed};
use second::bench::{steps, MOST_STEPS};
use second::board::board_runs_as_net;
use second::encode::with_section;
use second::jobs::LONG;
use second::{contents_after, read_record, read_with_section, Bench, Board, Random};

/// Areas after a change-over, or its refusal.
fn changed(net: &[u8], k: u32, target: u32, pairs: &[u8]) -> Result<Areas, u8> {
    let mut areas = Areas::default();
    areas.change_over(net, k, target, pairs)?;
    Ok(areas)
}

/// The contents that a change-over writes for a net with a section, or its refusal.
fn contents(net: &[u8], k: u32, target: u32, pairs: &[u8]) -> Result<Vec<u8>, u8> {
    let areas = changed(net, k, target, pairs)?;
    Ok(areas.written().to_vec())
}

fn some_bytes(random: &mut Random, number: usize) -> Vec<u8> {
    (0..number).map(|_| random.byte()).collect()
}

#[test]
fn by_hand() {
    let c = |pairs: &[u8]| contents(&c_with_section(), 2, 1, pairs);
    for (pairs, held) in [
        (&[][..], 1),
        (&[2], 1),
        (&[2, 0], 0),
        (&[2, 0, 9], 0),
        (&[2, 0, 3, 0], 1),
        (&[0xff, 0xff], 1),
        (&[0xfe, 0xff], 0),
        (&[0, 3], 0),
    ] {
        assert_eq!(c(pairs), Ok(vec![held]), "{pairs:?}");
    }
    let two = |pairs: &[u8]| contents(&c_with_two_outputs(), 2, 1, pairs);
    assert_eq!(two(&[]), Ok(vec![1, 1, 0]));
    assert_eq!(two(&[3, 0]), Ok(vec![1, 1, 1]));
    assert_eq!(two(&[3, 0, 2, 0]), Ok(vec![0, 0, 1]));
    assert_eq!(two(&[3, 0, 2, 0, 1, 0]), Ok(vec![0, 1, 0]));
    let b = with_section(&net_b(1), &[0, 0, 0, 0, 5]);
    assert_eq!(contents(&b, 2, 1, &[7, 0]), Err(22));
    assert_eq!(contents(&b, 2, 0, &[7, 0]), Ok(vec![1]));
    assert_eq!(contents(&b, 2, 0, &[6, 0]), Ok(vec![0]));
    assert_eq!(contents(&net_a(), 2, 1, &[7, 0]), Err(21));
    // A row of 99 registers: the input's values of the last steps, the newest first, then the section's bits.
    let long = longest_connection();
    let at_first = contents(&long, 2, 0, &[]).expect("contents");
    let pairs = some_bytes(&mut Random::new(7), 300);
    let inputs: Vec<u8> = steps(&pairs).map(|inputs| (inputs & 1) as u8).collect();
    for step in [1, 2, 3, 4, 98, 99, 100, 150] {
        let passed = inputs[..step].iter().rev().chain(&at_first);
        let passed: Vec<u8> = passed.copied().take(99).collect();
        assert_eq!(contents(&long, 2, 0, &pairs[..2 * step]), Ok(passed));
    }
}

#[test]
fn random_and_damaged_nets() {
    let all = cases() / 2;
    let tally = random_calls(LONG, all, 1_000_289, Sides::random_changes);
    let rare = |&number: &usize| tally.seen[number] <= 25;
    assert!(
        all < 50_000 || !(0..=11).chain(20..=22).any(|number| rare(&number)),
        "an answer is rare"
    );
    assert_eq!(tally.seen[12], 0);
    tally.fail_on_differences();
}

fn change(pairs: usize, loader: usize, contents: usize) -> Call {
    Call::ChangeOver {
        pairs,
        loader,
        contents,
    }
}

/// 0 to 4 pairs and a thousand, each with a lone last byte too.
#[test]
fn hand_made_nets_with_all_steps() {
    let pairs = [0, 1, 2, 3, 4, 5, 6, 7, 8, 9, 2000, 2001];
    let calls = pairs.map(|pairs| change(pairs, 0, 20_592));
    all_maps(LONG, &hand_made(), &[0, 1, 2, 33], &calls);
}

#[test]
fn hand_made_nets_with_all_lengths() {
    let contents = [0, 1, 20_591, 20_592, 20_593];
    let calls = contents.map(|contents| change(5, 256, contents));
    all_maps(LONG, &hand_made(), &[0, 1, 2, 33], &calls);
    let loaders = [1, 255, 257].map(|loader| change(5, loader, 20_592));
    all_maps(LONG, &for_forward(), &[0, 1, 2, 33], &loaders);
}

#[test]
fn real_nets() {
    let calls = [0, 7, 200].map(|pairs| change(pairs, 256, 20_592));
    all_maps(LONG, &real_with_sections(), &[0, 2, 32], &calls);
}

/// All lengths around the limits, for nets that are mapped and some that are refused: 20 comes behind 3 and
/// before 4 to 11, 21 behind 11 and before 22.
#[test]
fn areas_around_the_limits() {
    let lengths: [&[usize]; 2] = [&[0, 961, 962, 963], &[0, 65_535, 65_536, 65_537]];
    let mut calls = Vec::new();
    for loader in [0, 255, 256] {
        for pairs in [0, 5] {
            let contents = [0, 1, 20_591, 20_592, 20_593];
            calls.extend(contents.map(|contents| change(pairs, loader, contents)));
        }
    }
    let asked = [(2, 0), (2, 1), (1, 0), (2, 33), (7, 33)];
    let tally = all_lengths(&mapped_and_refused(), lengths, &calls, &asked);
    assert!((0..=11).chain(20..=22).all(|number| tally.seen[number] > 0));
}

/// "A change-over at step 0 must give E6's contents", and at every step all else is forward map's: answer, cover
/// area, loader area and scratch.
#[test]
fn beside_forward_map() {
    let rounds = cases() / 24;
    each_thread(|thread, threads| {
        let mut random = Random::new(seed().wrapping_mul(1_000_291).wrapping_add(thread));
        let noise = some_bytes(&mut random, SCRATCH + 3);
        for _ in 0..rounds / threads {
            let (net, pins) = some_forward_net(&mut random);
            let k = some_k(&mut random, pins);
            let target = random.pick(&[0, 0, 1, 2, 3, 32, 33]);
            let loader = random.pick(&[0, LOADER_AREA - 1, LOADER_AREA, LOADER_AREA + 1]);
            let call = |pairs: Option<&[u8]>| {
                let [mut cover, mut scratch] =
                    [COVER_AREA + 1, SCRATCH + 3].map(|n| noise[..n].to_vec());
                let [mut loader, mut contents] =
                    [loader, CONTENTS_AREA + 1].map(|n| noise[..n].to_vec());
                let (room, work) = (&mut cover, &mut scratch);
                let (image, held) = (&mut loader, &mut contents);
                let answer = match pairs {
                    None => kamfelu::map_forward(&net, k, target, room, work, image, held),
                    Some(pairs) => {
                        kamfelu::change_over(&net, k, target, pairs, room, work, image, held)
                    }
                };
                ((answer, cover, scratch, loader), contents)
            };
            let first = call(None);
            for pairs in [&[][..], &[random.byte()]] {
                assert!(
                    call(Some(pairs)) == first,
                    "net {net:?} k {k} target {target}"
                );
            }
            let number = some_pairs(&mut random);
            let later = call(Some(&some_bytes(&mut random, number)));
            assert!(later.0 == first.0, "net {net:?} k {k} target {target}");
            let kept = later.1 == noise[..CONTENTS_AREA + 1];
            assert!(later.0 .0.is_ok() || kept);
        }
    });
}

/// "From that step the board's outputs go on as the old net's would have done, for all later inputs": with the
/// library's own record and contents. One step on, the board's registers hold what a change-over there gives.
#[test]
fn boards_go_on_as_their_nets() {
    let rounds = cases() / 20;
    let counts = each_thread(|thread, threads| {
        let mut random = Random::new(seed().wrapping_mul(1_000_303).wrapping_add(thread));
        let (mut moved, mut other) = (0, 0);
        for _ in 0..rounds / threads {
            let (bytes, pins) = some_forward_net(&mut random);
            let k = pins.max(random.within(2, 6)) as u32;
            let target = random.pick(&[0, 0, 1, 2, 3, 32]);
            let number = some_pairs(&mut random);
            let pairs = some_bytes(&mut random, number);
            let mut areas = Areas::default();
            let Ok(length) = areas.change_over(&bytes, k, target, &pairs) else {
                continue;
            };
            let told = || format!("net {bytes:?} k {k} target {target} pairs {pairs:?}");
            let record = &areas.cover[..length];
            let (net, section) = read_with_section(&bytes, k).expect("a net");
            let section = section.expect("a section");
            let cover = read_record(&net, k, record).expect("a record");
            let written = areas.written();
            let all = connections(&bytes, record, written).expect("connections");
            let registers = all.iter().map(|connection| connection.registers.len());
            assert_eq!(registers.sum::<usize>(), written.len());
            let bench = Bench::after(&net, &section, &pairs);
            assert!(
                board_runs_as_net(bench, &cover, written, 300, &mut random),
                "{}",
                told()
            );
            let mut board = Board::new(&net, &cover, written);
            let inputs = random.word() as u16;
            board.step(inputs);
            let whole = &pairs[..pairs.len() & !1];
            let next = [whole, &inputs.to_le_bytes()].concat();
            assert_eq!(
                contents(&bytes, k, target, &next),
                Ok(board.contents()),
                "{}",
                told()
            );
            moved += u64::from(cover.luts.iter().any(|lut| lut.lag < 0));
            other += u64::from(contents(&bytes, k, target, &[]).as_deref() != Ok(written));
        }
        [moved, other]
    });
    println!("registers moved, contents not those of step 0: {counts:?}");
    let enough = |[moved, other]: &[u64; 2]| *moved > rounds / 60 && *other > rounds / 60;
    assert!(rounds < 2000 || counts.iter().all(enough));
}

/// The bench's limit of steps is none here.
#[test]
fn more_steps_than_the_bench_runs() {
    let mut random = Random::new(8);
    let bytes = of_32_gates(&mut random);
    let (net, section) = read_with_section(&bytes, 6).expect("a net");
    let section = section.expect("a section");
    let pairs = some_bytes(&mut random, 2 * MOST_STEPS + 10_001);
    for number in [
        2 * MOST_STEPS - 2,
        2 * MOST_STEPS,
        2 * MOST_STEPS + 1,
        2 * MOST_STEPS + 2,
        2 * MOST_STEPS + 4,
        pairs.len(),
    ] {
        let mut areas = Areas::default();
        let answer = areas.change_over(&bytes, 6, 0, &pairs[..number]);
        let record = &areas.cover[..answer.expect("a record")];
        let cover = read_record(&net, 6, record).expect("a record");
        let expected = contents_after(&net, &section, &cover, &pairs[..number]);
        assert_eq!(areas.written(), expected, "{number} bytes");
    }
}
