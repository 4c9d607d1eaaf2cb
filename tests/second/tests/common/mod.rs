//! Helpers of several tests.
#![allow(dead_code)]

pub mod areas;
pub mod covers;
pub mod told;

use second::encode::encode;
use second::generate::{random_net, Shape};
use second::jobs::{COVER_BYTES, SCRATCH_BYTES};
use second::{
    least_period, solve, Answer, Cover, Gate, Limits, Mode, Net, NodeCopy, Pin, Random, Stop,
};
use std::collections::{BTreeSet, HashSet};

pub const AND: u64 = 8;
/// The table of a gate that hands its pin on.
pub const SAME: u64 = 2;

fn pins(list: &[(usize, u32)]) -> Vec<Pin> {
    list.iter()
        .map(|&(source, count)| Pin { source, count })
        .collect()
}

/// A gate's pins, each with source and count, and its table.
pub type GateText<'a> = (&'a [(usize, u32)], u64);

pub fn net(inputs: usize, gates: &[GateText], outputs: &[(usize, u32)]) -> Net {
    let gate = |&(list, table): &GateText| Gate {
        pins: pins(list),
        table,
    };
    Net {
        inputs,
        gates: gates.iter().map(gate).collect(),
        outputs: pins(outputs),
    }
}

pub fn net_bytes(inputs: usize, gates: &[GateText], outputs: &[(usize, u32)]) -> Vec<u8> {
    encode(&net(inputs, gates, outputs))
}

/// Net A as document 01 gives its bytes.
pub fn net_a() -> Vec<u8> {
    vec![
        0x02, 0x03, 0x01, 0x03, 0x00, 0x00, 0x01, 0x08, 0x03, 0x02, 0x02, 0x04, 0x01, 0x06, 0x01,
        0x00, 0x03, 0x01, 0x00, 0x04,
    ]
}

/// Net B; its output reads gate 4 through `count` registers.
pub fn net_b(count: u32) -> Vec<u8> {
    net_bytes(
        3,
        &[(&[(0, 0), (1, 0)], AND), (&[(3, 0), (2, 0)], AND)],
        &[(4, count)],
    )
}

pub fn net_c() -> Vec<u8> {
    net_bytes(2, &[(&[(0, 1), (1, 1)], AND)], &[(2, 0)])
}

/// 32 gates in a line, each behind three registers, and three at the output, as a record.
pub fn longest_line() -> Vec<u8> {
    let pins: Vec<[(usize, u32); 1]> = (0..32).map(|i| [(i, 3)]).collect();
    let gates: Vec<GateText> = pins.iter().map(|pins| (&pins[..], SAME)).collect();
    net_bytes(1, &gates, &[(32, 3)])
}

/// What a section tells, node by node, the step before step 0 first.
pub fn section_bits(section: &[u8]) -> Vec<u8> {
    let bits = |byte: &u8| [0, 1, 2].map(|at| byte >> at & 1);
    section.iter().flat_map(bits).collect()
}

/// The forward cover of a net for a target, 0 for the least period.
pub fn forward(net: &Net, k: u32, target: u32) -> Result<Cover, Stop> {
    let solved = solve(net, Mode::Forward, k, target, Limits::default());
    solved.map(|(cover, _)| cover)
}

/// Some net with many registers, its k and a target that is met.
pub fn moving_net(random: &mut Random, gates: usize) -> (Net, u32, u32) {
    let k = random.within(2, 5);
    let shape = Shape {
        registers: random.pick(&[20, 50, 80]),
        ..Shape::any(random, gates, k)
    };
    let net = random_net(random, &shape);
    let least = least_period(&net, Mode::Forward, k as u32).expect("a period");
    let target = random.pick(&[0, least, least + 1, 32]);
    (net, k as u32, target)
}

/// Map with areas that are large enough: the record, or the other answer.
pub fn map(net: &[u8], k: u32, target: u32) -> Result<Vec<u8>, Answer> {
    let mut cover = vec![0xa5; COVER_BYTES];
    let mut scratch = vec![0x5a; SCRATCH_BYTES];
    match second::map(net, k, target, &mut cover, &mut scratch) {
        Answer::Done(length) => Ok(cover[..length as usize].to_vec()),
        other => Err(other),
    }
}

pub fn mark(net: &[u8], k: u32, record: &[u8]) -> Answer {
    second::mark(net, k, record, &mut vec![0x5a; SCRATCH_BYTES])
}

/// A cone and its leaves, both rising.
pub type ConeAndLeaves = (Vec<NodeCopy>, Vec<NodeCopy>);

/// All k-cuts of v with their cones, straight from the definition: every cone with at
/// most `copies` copies of a gate is grown from v:0 by adding one of its gate leaves.
/// None if there are more than `most` cones.
pub fn grown_cuts(
    net: &Net,
    v: usize,
    k: usize,
    copies: usize,
    most: usize,
) -> Option<Vec<ConeAndLeaves>> {
    let root = vec![NodeCopy { node: v, d: 0 }];
    let mut seen: HashSet<Vec<NodeCopy>> = HashSet::from([root.clone()]);
    let mut todo = vec![root];
    let mut cuts = Vec::new();
    while let Some(cone) = todo.pop() {
        let feeds: BTreeSet<NodeCopy> = cone.iter().flat_map(|&copy| net.feeds(copy)).collect();
        let leaves: Vec<NodeCopy> = feeds
            .into_iter()
            .filter(|feed| !cone.contains(feed))
            .collect();
        for &leaf in leaves.iter().filter(|leaf| net.is_gate(leaf.node)) {
            if cone.iter().filter(|copy| copy.node == leaf.node).count() < copies {
                let mut larger = cone.clone();
                larger.push(leaf);
                larger.sort_unstable();
                if seen.insert(larger.clone()) {
                    todo.push(larger);
                }
            }
        }
        if leaves.len() <= k {
            cuts.push((cone, leaves));
        }
        if seen.len() > most {
            return None;
        }
    }
    Some(cuts)
}

/// A net of at most three gates with few pins and registers, and a k that suits it.
/// Many need a period above 1: few pins repeat a source, and k is seldom above the pins.
pub fn tiny_net(random: &mut Random) -> (Net, u32) {
    let pins = random.pick(&[1, 2, 2, 2, 2, 3]);
    let inputs = random.within(1, 5);
    let shape = Shape {
        inputs: (inputs, inputs),
        gates: (random.pick(&[1, 2, 3, 3]), 3),
        outputs: (1, 1),
        pins: (random.pick(&[1, pins, pins]), pins),
        count: random.pick(&[1, 1, 2]),
        registers: random.pick(&[0, 0, 0, 20, 40]),
        back: random.pick(&[0, 0, 20, 50]),
        twin: random.pick(&[0, 0, 20]),
        input: random.pick(&[0, 20, 40]),
    };
    let more = random.pick(&[0, 0, 0, 1]);
    (random_net(random, &shape), (pins + more).max(2) as u32)
}
