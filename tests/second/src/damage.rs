//! Damaged net records, and candidates' cover records, good and bad.

use crate::cone::lut_table;
use crate::cover::{write_record, Cover, Lut};
use crate::cuts::{CutSets, Limits};
use crate::labels::Mode;
use crate::mark::longest_chain;
use crate::net::{Net, NodeCopy};
use crate::random::Random;
use crate::solve::solve;
use std::collections::BTreeSet;

/// Bytes with one small change.
pub fn damaged(random: &mut Random, bytes: &[u8]) -> Vec<u8> {
    let mut bytes = bytes.to_vec();
    let at = random.below(bytes.len().max(1));
    match random.below(10) {
        _ if bytes.is_empty() => bytes.push(random.byte()),
        0 => bytes.truncate(at),
        1 => bytes.push(random.pick(&[0, 1, 255])),
        2 => bytes.insert(at, random.byte()),
        3 => {
            bytes.remove(at);
        }
        4 => bytes[at] = random.byte(),
        5 => bytes[at] = bytes[at].wrapping_add(1),
        6 => bytes[at] = bytes[at].wrapping_sub(1),
        7 => bytes[at] = random.pick(&[0, 3, 4, 16, 17, 32, 33, 63, 64, 255]),
        _ => bytes[at] ^= 1 << random.below(8),
    }
    bytes
}

/// A net record with one to three changes, the first three bytes changed more often.
pub fn damaged_net(random: &mut Random, bytes: &[u8]) -> Vec<u8> {
    let mut bytes = bytes.to_vec();
    for _ in 0..random.within(1, 3) {
        if bytes.len() > 3 && random.chance(10) {
            bytes[random.below(3)] = random.pick(&[0, 1, 2, 16, 17, 32, 33]);
        } else {
            bytes = damaged(random, &bytes);
        }
    }
    bytes
}

/// A candidate's record for a checked net and k: about half of them are good covers.
/// None if the cuts are too many.
pub fn candidate(random: &mut Random, net: &Net, k: u32, limits: Limits) -> Option<Vec<u8>> {
    let mut cover = if random.chance(40) {
        let (least, _) = solve(net, Mode::Plain, k, 0, limits).ok()?;
        let target = (least.period + random.below(3) as u32).min(32);
        solve(net, Mode::Plain, k, target, limits).ok()?.0
    } else {
        free_cover(random, net, &CutSets::new(net, k, limits)?)
    };
    if random.chance(50) {
        return Some(write_record(&cover));
    }
    for _ in 0..random.within(1, 2) {
        change(random, net, &mut cover);
    }
    let record = write_record(&cover);
    Some(if random.chance(30) {
        damaged(random, &record)
    } else {
        record
    })
}

/// A cover with any cuts and any lags that leave no connection below 0 registers.
/// Its period is its longest chain or a little more.
pub fn free_cover(random: &mut Random, net: &Net, cuts: &CutSets) -> Cover {
    let mut todo: Vec<usize> = net.outputs.iter().map(|output| output.source).collect();
    if random.chance(20) {
        todo.push(random.below(net.nodes()));
    }
    let mut roots = BTreeSet::new();
    let mut cover = Cover {
        period: 1,
        luts: Vec::new(),
    };
    while let Some(v) = todo.pop() {
        if net.is_gate(v) && roots.insert(v) {
            let set = cuts.of(v);
            let leaves = set[random.below(set.len())].leaves.clone();
            todo.extend(leaves.iter().map(|leaf| leaf.node));
            let table = lut_table(net, v, &leaves);
            cover.luts.push(Lut {
                root: v,
                leaves,
                lag: 0,
                table,
            });
        }
    }
    cover.luts.sort_by_key(|lut| lut.root);
    for _ in 0..random.below(4 * cover.luts.len()) {
        let at = random.below(cover.luts.len());
        let step = random.pick(&[-1, 1]);
        cover.luts[at].lag += step;
        let connections = cover.connections(net).expect("every LUT is there");
        if connections.iter().any(|&(_, registers)| registers < 0) {
            cover.luts[at].lag -= step;
        }
    }
    let more = if random.chance(30) {
        random.below(3) as u32
    } else {
        0
    };
    cover.period = (longest_chain(net, &cover) + more).min(32);
    cover
}

/// One change to a cover.
fn change(random: &mut Random, net: &Net, cover: &mut Cover) {
    if cover.luts.is_empty() {
        return;
    }
    let at = random.below(cover.luts.len());
    let lut = &mut cover.luts[at];
    match random.below(9) {
        0 => lut.lag += random.pick(&[-2, -1, 1, 2]),
        1 => lut.table ^= 1 << random.below(1 << lut.leaves.len().min(6)),
        2 => {
            cover.luts.remove(at);
        }
        3 => {
            let at = random.below(lut.leaves.len());
            lut.leaves[at] = random_leaf(random, net);
            lut.leaves.sort_unstable();
        }
        4 if lut.leaves.len() > 1 => {
            lut.leaves.remove(random.below(lut.leaves.len()));
        }
        5 if lut.leaves.len() < 6 => {
            lut.leaves.push(random_leaf(random, net));
            lut.leaves.sort_unstable();
            lut.table |= lut.table << (1 << (lut.leaves.len() - 1));
        }
        6 => cover.period = random.within(0, 33) as u32,
        7 => cover.period = cover.period.saturating_sub(1),
        _ => {
            let at = random.below(lut.leaves.len());
            let leaf = &mut lut.leaves[at];
            leaf.d = if random.chance(50) {
                leaf.d + 1
            } else {
                leaf.d.saturating_sub(1)
            };
        }
    }
}

pub fn random_leaf(random: &mut Random, net: &Net) -> NodeCopy {
    let d = random.pick(&[0, 0, 0, 1, 1, 2, 3, 573, 577, 65_535]);
    NodeCopy {
        node: random.below(net.nodes()),
        d,
    }
}
