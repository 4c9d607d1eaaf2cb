//! Forward map (document 02, E6) against the second mapper's: answers, cover areas, loader areas, contents areas
//! and scratch, whole; and boards with the library's own records and contents against runs of the net.

use kamfelu::{connections, Connection, Reader, CONTENTS_AREA, COVER_AREA, SCRATCH};
use library::areas::Areas;
use library::compare::{all_lengths, all_maps, random_calls, Call, Sides};
use library::inputs::{some_forward_net, some_k, some_net};
use library::nets::{
    c_with_section, c_with_two_outputs, for_forward, hand_made, longest_connection,
    longest_outputs, mapped_and_refused, net_a, net_b, real, real_with_sections,
};
use library::tally::{cases, each_thread, seed};
use second::board::board_runs_as_net;
use second::contents::CONTENTS_BYTES;
use second::damage::damaged;
use second::encode::{encode, random_section, with_section};
use second::jobs::LONG;
use second::mark::is_forward;
use second::{parse_net, rare, read_record, read_with_section, Bench, Cover, Net, Random};

/// The first contents that forward map writes for a net with a section, or its refusal.
fn contents(net: &[u8], k: u32, target: u32) -> Result<Vec<u8>, u8> {
    let mut areas = Areas::default();
    areas.forward(net, k, target)?;
    Ok(areas.written().to_vec())
}

#[test]
fn by_hand() {
    assert_eq!(CONTENTS_AREA, CONTENTS_BYTES);
    assert_eq!(contents(&c_with_section(), 2, 1), Ok(vec![1]));
    assert_eq!(contents(&c_with_section(), 2, 0), Ok(vec![1]));
    assert_eq!(contents(&c_with_two_outputs(), 2, 1), Ok(vec![1, 1, 0]));
    let b = with_section(&net_b(1), &[0, 0, 0, 0, 5]);
    assert_eq!(contents(&b, 2, 1), Err(22));
    assert_eq!(contents(&b, 2, 0), Ok(vec![1]));
    assert_eq!(contents(&b, 3, 1), Ok(vec![1]));
    let a = with_section(&net_a(), &[0, 0, 0, 0, 1]);
    assert_eq!(contents(&a, 2, 0), Ok(vec![1]));
    assert_eq!(contents(&net_a(), 2, 1), Err(21));
    // The section's bits, node by node.
    let long = longest_connection();
    let bits = long[long.len() - 33..].iter();
    let bits = bits.flat_map(|byte| [0, 1, 2].map(|at| byte >> at & 1));
    assert_eq!(contents(&long, 2, 0), Ok(bits.collect()));
    let most = contents(&longest_outputs(), 2, 0);
    assert_eq!(most.map(|contents| contents.len()), Ok(16 * 99));
}

/// Nets on which a shortcut goes wrong: the least period, and nothing below it.
#[test]
fn rare_nets() {
    for rare in rare::all() {
        let nodes = usize::from(rare.net[0] + rare.net[1]);
        let net = with_section(&rare.net, &vec![3; nodes]);
        let mut areas = Areas::default();
        assert!(areas.forward(&net, rare.k, 0).is_ok());
        assert_eq!(u32::from(areas.cover[0]), rare.least);
        for below in 1..rare.least {
            assert_eq!(areas.forward(&net, rare.k, below), Err(22));
        }
    }
}

#[test]
fn random_and_damaged_nets() {
    let all = cases() / 2;
    let tally = random_calls(LONG, all, 1_000_249, Sides::random_forwards);
    let rare = |&number: &usize| tally.seen[number] <= 25;
    assert!(
        all < 50_000 || !(0..=11).chain(20..=22).any(|number| rare(&number)),
        "an answer is rare"
    );
    assert_eq!(tally.seen[12], 0);
    tally.fail_on_differences();
}

fn forward(loader: usize, contents: usize) -> Call {
    Call::Forward { loader, contents }
}

/// Every k from 0 to 8 with every target from 0 to 40 and the huge ones.
#[test]
fn hand_made_nets_with_all_k_and_targets() {
    let targets: Vec<u32> = (0..=40).collect();
    let calls = [forward(0, 0), forward(0, 20_592)];
    all_maps(LONG, &hand_made(), &targets, &calls);
}

#[test]
fn hand_made_nets_with_all_lengths() {
    let contents = [0, 1, 20_591, 20_592, 20_593];
    let calls: Vec<Call> = contents.map(|contents| forward(256, contents)).into();
    all_maps(LONG, &hand_made(), &[0, 1, 2, 33], &calls);
    let loaders = [1, 255, 257].map(|loader| forward(loader, 20_592));
    all_maps(LONG, &for_forward(), &[0, 1, 2, 33], &loaders);
}

/// The real nets, each with some section and without.
#[test]
fn real_nets() {
    let nets = [real(), real_with_sections()].concat();
    all_maps(LONG, &nets, &[0, 1, 2, 3, 4, 32], &[forward(256, 20_592)]);
    all_maps(LONG, &real(), &[0, 2], &[forward(0, 0)]);
}

/// All lengths around the limits, for nets that are mapped and some that are refused: 20 comes behind 3 and
/// before 4 to 11, 21 behind 11 and before 22.
#[test]
fn areas_around_the_limits() {
    let lengths: [&[usize]; 2] = [&[0, 961, 962, 963], &[0, 65_535, 65_536, 65_537]];
    let mut calls = Vec::new();
    for loader in [0, 1, 255, 256, 257] {
        calls.extend([0, 1, 20_591, 20_592, 20_593, 65_536].map(|n| forward(loader, n)));
    }
    let asked = [(2, 0), (2, 1), (1, 0), (2, 33), (7, 33)];
    let tally = all_lengths(&mapped_and_refused(), lengths, &calls, &asked);
    assert!((0..=11).chain(20..=22).all(|number| tally.seen[number] > 0));
}

/// The crate's connections are those of the second mapper, and their parts are the contents, one after the other.
fn same_connections(net: &Net, cover: &Cover, all: &[Connection], contents: &[u8]) -> bool {
    let mut readers = Vec::new();
    for lut in &cover.luts {
        let root = lut.root as u8;
        readers.extend((0..lut.leaves.len()).map(|leaf| Reader::Leaf { root, leaf }));
    }
    readers.extend((0..net.outputs.len()).map(Reader::Output));
    let expected = cover.connections(net).expect("LUTs");
    let told = all.iter().map(|connection| {
        let Connection {
            source, registers, ..
        } = connection;
        (usize::from(*source), registers.len() as i64)
    });
    let parts: Vec<&[u8]> = all.iter().map(|connection| connection.registers).collect();
    told.eq(expected)
        && all.iter().map(|connection| connection.reader).eq(readers)
        && contents.starts_with(&parts.concat())
}

/// "From step 0 on, for any inputs, the outputs of board and net agree for ever": with the library's own record
/// and contents, which are a forward cover's; mark accepts the record, and its excess is against the least period
/// of all covers.
#[test]
fn boards_run_as_their_nets() {
    let rounds = cases() / 20;
    let counts = each_thread(|thread, threads| {
        let mut random = Random::new(seed().wrapping_mul(1_000_253).wrapping_add(thread));
        let (mut moved, mut later) = (0, 0);
        for _ in 0..rounds / threads {
            let (bytes, pins) = some_forward_net(&mut random);
            let k = pins.max(random.within(2, 6)) as u32;
            let target = random.pick(&[0, 0, 1, 2, 3, 32]);
            let mut areas = Areas::default();
            let Ok(length) = areas.forward(&bytes, k, target) else {
                continue;
            };
            let record = &areas.cover[..length];
            let excess = kamfelu::mark(&bytes, k, record, &mut areas.scratch);
            let mut plain = vec![0; COVER_AREA];
            let answer = kamfelu::map(&bytes, k, 0, &mut plain, &mut areas.scratch);
            assert!(answer.is_ok());
            assert_eq!(excess, Ok(usize::from(record[0] - plain[0])));
            let (net, section) = read_with_section(&bytes, k).expect("a net");
            let section = section.expect("a section");
            let cover = read_record(&net, k, record).expect("a record");
            assert!(is_forward(&net, &cover), "net {bytes:?} k {k}");
            let all = connections(&bytes, record, &areas.contents).expect("connections");
            assert!(same_connections(&net, &cover, &all, &areas.contents));
            let registers = all.iter().map(|connection| connection.registers.len());
            let contents = &areas.contents[..registers.sum()];
            let bench = Bench::new(&net, &section);
            assert!(
                board_runs_as_net(bench, &cover, contents, 300, &mut random),
                "net {bytes:?} k {k} target {target}"
            );
            moved += u64::from(cover.luts.iter().any(|lut| lut.lag < 0));
            later += u64::from(target == 0 && record[0] > plain[0]);
        }
        [moved, later]
    });
    println!("registers moved, least period above the plain one: {counts:?}");
    let enough = |[moved, later]: &[u64; 2]| *moved > rounds / 60 && *later > rounds / 120;
    assert!(rounds < 2000 || counts.iter().all(enough));
}

/// Forward map with and without loader and contents areas, and on the net without its section: the same answer,
/// cover area and scratch.
#[test]
fn areas_beside_each_other() {
    let rounds = cases() / 24;
    each_thread(|thread, threads| {
        let mut random = Random::new(seed().wrapping_mul(1_000_273).wrapping_add(thread));
        let noise: Vec<u8> = (0..SCRATCH + 3).map(|_| random.byte()).collect();
        for _ in 0..rounds / threads {
            let (net, pins) = some_net(&mut random);
            let Ok(read) = parse_net(&net, 6) else {
                continue;
            };
            let k = some_k(&mut random, pins);
            let target = random.pick(&[0, 0, 1, 2, 3, 32, 33]);
            let bare = encode(&read);
            let net = with_section(&bare, &random_section(read.nodes(), &mut random));
            let call = |net: &[u8], loader: usize, contents: usize| {
                let [mut cover, mut scratch] = [963, SCRATCH + 3].map(|n| noise[..n].to_vec());
                let [mut loader, mut contents] = [loader, contents].map(|n| noise[..n].to_vec());
                let areas = (&mut cover, &mut scratch, &mut loader, &mut contents);
                let answer =
                    kamfelu::map_forward(net, k, target, areas.0, areas.1, areas.2, areas.3);
                ((answer, cover, scratch), loader, contents)
            };
            let (told, loader, contents) = call(&net, 256, 20_592);
            let same = |other: &(Result<usize, u8>, Vec<u8>, Vec<u8>)| {
                assert!(*other == told, "net {net:?} k {k} target {target}");
            };
            let (other, _, own) = call(&net, 0, 20_592);
            same(&other);
            assert!(own == contents);
            let (other, own, _) = call(&net, 257, 0);
            same(&other);
            assert!(own.starts_with(&loader));
            same(&call(&net, 0, 0).0);
            same(&call(&bare, 0, 0).0);
        }
    });
}

/// Whatever the bytes are, `connections` ends; what is cut off in front of the contents' end is none.
#[test]
fn connections_of_any_bytes() {
    let mut random = Random::new(seed());
    let mut areas = Areas::default();
    let two = c_with_two_outputs();
    let length = areas.forward(&two, 2, 1).expect("a record");
    let (record, contents) = (&areas.cover[..length], &areas.contents[..3]);
    assert_eq!(
        connections(&two, record, contents).map(|all| all.len()),
        Some(4)
    );
    for end in 0..length {
        assert_eq!(connections(&two, &record[..end], contents), None);
    }
    for end in 0..two.len() - 3 {
        assert_eq!(connections(&two[..end], record, contents), None);
    }
    for end in 0..3 {
        assert_eq!(connections(&two, record, &contents[..end]), None);
    }
    let mut told = 0;
    for _ in 0..20_000 {
        let (net, record) = (damaged(&mut random, &two), damaged(&mut random, record));
        told += usize::from(connections(&net, &record, contents).is_some());
        let noise: Vec<u8> = (0..random.below(60)).map(|_| random.byte()).collect();
        connections(&noise, &record, contents);
        connections(&net, &noise, contents);
    }
    assert!(told > 1000, "{told}");
}
