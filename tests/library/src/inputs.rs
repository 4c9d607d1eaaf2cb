//! Random nets of all kinds, k, targets and lengths of areas.

use crate::nets::{net_a, net_b, net_c, of_family, FAMILIES};
use second::contents::CONTENTS_BYTES;
use second::damage::damaged_net;
use second::encode::{encode, encode_with_holes, random_section, with_section};
use second::generate::{random_net, wild_net, Shape};
use second::jobs::{COVER_BYTES, SCRATCH_BYTES};
use second::loader::LOADER_BYTES;
use second::{parse_net, parse_with_section, Net, Random};

/// Targets and k that are right only in their low bits.
pub const HUGE: [u32; 8] = [
    256,
    256 + 2,
    65_536,
    65_536 + 2,
    1 << 31,
    (1 << 31) + 2,
    u32::MAX - 1,
    u32::MAX,
];

/// Mostly a contents area that is long enough; none and short ones among them.
pub fn some_contents(random: &mut Random) -> usize {
    match random.below(10) {
        0 | 1 => 0,
        2 => random.pick(&[1, 99, 961, 20_000, 20_591, 20_591]),
        3 => random.pick(&[20_600, 65_536, 99_999]),
        _ => random.within(CONTENTS_BYTES, CONTENTS_BYTES + 1),
    }
}

/// The length of input pairs in bytes: 0 to 4 steps, some more or a thousand; a lone last byte behind half of them.
pub fn some_pairs(random: &mut Random) -> usize {
    let steps = match random.below(40) {
        0 => 1000,
        _ => random.pick(&[0, 1, 2, 3, 4, 5, 10, 40]),
    };
    2 * steps + random.below(2)
}

/// Mostly a loader area that is long enough; none and short ones among them.
pub fn some_loader(random: &mut Random) -> usize {
    match random.below(10) {
        0 => 0,
        1 => random.pick(&[1, 8, 16, 128, 254, 255]),
        2 => random.pick(&[300, 1000, 65_536]),
        _ => random.within(LOADER_BYTES, LOADER_BYTES + 1),
    }
}

/// Most areas are large enough; the others are at the limits.
pub fn some_lengths(random: &mut Random) -> (usize, usize) {
    let covers = [961, COVER_BYTES, 963, 0, 1, 1000];
    let works = [65_535, SCRATCH_BYTES, 65_537, 0, 65_000, 70_000];
    match random.below(20) {
        0 => (random.pick(&covers), random.pick(&works)),
        1 => (random.pick(&covers), SCRATCH_BYTES),
        2 => (COVER_BYTES, random.pick(&works)),
        _ => (random.within(962, 963), random.within(65_536, 65_537)),
    }
}

/// Nets that seldom reach period 1: many inputs, few registers, few pins of one source.
pub fn deep(random: &mut Random, gates: usize, pins: usize) -> Shape {
    Shape {
        inputs: (random.within(2, 16), 16),
        gates: (gates / 2, gates),
        outputs: (1, 2),
        pins: (pins.min(2), pins),
        count: random.within(1, 3) as u32,
        registers: random.pick(&[0, 5, 15]),
        back: random.pick(&[5, 15, 30]),
        twin: 0,
        input: random.pick(&[10, 30]),
    }
}

/// A few gates with many registers: now and then some is reached from no input, or leads to no output.
fn small_wild(random: &mut Random, pins: usize) -> Net {
    let shape = Shape {
        registers: 60,
        ..Shape::any(random, 4, pins.min(2))
    };
    wild_net(random, &shape)
}

/// Net bytes of all kinds, and the most pins of a gate.
pub fn some_net(random: &mut Random) -> (Vec<u8>, usize) {
    let pins = random.within(1, 6);
    let gates = random.pick(&[3, 6, 6, 10, 10, 16, 32]);
    let shape = match random.below(2) {
        0 => Shape::any(random, gates, pins),
        _ => deep(random, gates, pins),
    };
    let bytes = match random.below(20) {
        0 => encode_with_holes(&wild_net(random, &shape), random),
        1 => encode_with_holes(&small_wild(random, pins), random),
        2 => (0..random.below(60)).map(|_| random.byte()).collect(),
        3 => {
            let family = random.below(FAMILIES.len());
            let gates = random.within(2, 12);
            encode(&of_family(family, random, gates, pins.max(2)))
        }
        4 => random.pick(&[net_a as fn() -> Vec<u8>, net_c, || net_b(0), || net_b(1)])(),
        _ => encode_with_holes(&random_net(random, &shape), random),
    };
    let bytes = some_section(random, bytes);
    let bytes = match random.below(10) {
        0..=2 => damaged_net(random, &bytes),
        _ => bytes,
    };
    (bytes, pins)
}

/// Now and then a section behind a net that is read: whole, or with a byte above 7, with bytes missing or
/// over, its bit without it, or it without its bit.
pub fn some_section(random: &mut Random, net: Vec<u8>) -> Vec<u8> {
    if random.chance(70) {
        return net;
    }
    let Ok(read) = parse_net(&net, 6) else {
        return net;
    };
    let mut section = random_section(read.nodes(), random);
    let at = random.below(section.len());
    match random.below(16) {
        0 => section[at] = random.pick(&[8, 9, 15, 16, 64, 128, 135, 255]),
        1 => section.truncate(at),
        2 => section.extend((0..random.within(1, 3)).map(|_| random.byte())),
        3 => section.clear(),
        4 => return [net, section].concat(),
        _ => {}
    }
    with_section(&net, &section)
}

/// Net bytes of all kinds, most of them with a section.
pub fn some_forward_net(random: &mut Random) -> (Vec<u8>, usize) {
    let pins = random.within(2, 4);
    let (bytes, pins) = match random.below(10) {
        0..=3 => some_net(random),
        4..=6 => (encode_with_holes(&late_outputs(random, pins), random), pins),
        7 | 8 => (encode_with_holes(&tangled(random, pins), random), pins),
        _ => {
            let (family, gates) = (random.below(FAMILIES.len()), random.within(4, 16));
            (encode(&of_family(family, random, gates, pins)), pins)
        }
    };
    (mostly_sectioned(random, bytes), pins)
}

/// Registers at the outputs, which no forward cover moves into the net.
fn late_outputs(random: &mut Random, pins: usize) -> Net {
    let gates = random.pick(&[4, 8, 8, 16, 32]);
    let shape = deep(random, gates, pins);
    let mut net = random_net(random, &shape);
    for output in &mut net.outputs {
        output.count = random.within(1, 3) as u32;
    }
    net
}

/// Few inputs, many registers and loops: labels climb from far below, and members have many different d.
fn tangled(random: &mut Random, pins: usize) -> Net {
    let shape = Shape {
        inputs: (1, 2),
        gates: (4, random.pick(&[6, 8, 12])),
        outputs: (1, 2),
        pins: (random.within(1, 2), pins),
        count: 3,
        registers: random.pick(&[40, 60]),
        back: random.pick(&[30, 50]),
        twin: 0,
        input: random.pick(&[10, 30]),
    };
    random_net(random, &shape)
}

/// Nine of ten nets that are read and have no section get one.
pub fn mostly_sectioned(random: &mut Random, net: Vec<u8>) -> Vec<u8> {
    match parse_with_section(&net, 6) {
        Ok((read, None)) if random.chance(90) => {
            with_section(&net, &random_section(read.nodes(), random))
        }
        _ => net,
    }
}

pub fn some_target(random: &mut Random, least: u32) -> u32 {
    match random.below(20) {
        0..=3 => 0,
        4..=8 => least,
        9..=11 => least.saturating_sub(1),
        12 => least + 1,
        13 => random.pick(&[31, 32, 33]),
        14 => random.pick(&HUGE),
        15 => random.below(41) as u32,
        _ => random.within(1, 5) as u32,
    }
}

/// Mostly a k that suits gates with so many pins.
pub fn some_k(random: &mut Random, pins: usize) -> u32 {
    match random.below(40) {
        0 => random.below(9) as u32,
        1 => random.pick(&HUGE),
        2..=5 => random.within(2, 6) as u32,
        6..=20 => pins.max(2) as u32,
        _ => random.within(pins.max(2), 6) as u32,
    }
}
