//! The cover that map writes, and the least period.

use crate::cone::lut_table;
use crate::cover::{Cover, Lut};
use crate::cuts::{CutSets, Limits};
use crate::labels::{chosen_cut, lag_of, least_labels_over, Mode};
use crate::net::Net;
use std::collections::BTreeSet;

/// Why there is no cover.
#[derive(Clone, Copy, Debug, PartialEq, Eq)]
pub enum Stop {
    Refused(u8),
    GaveUp,
}

/// The cover for a target, or for the least period where the target is 0, and the
/// labels behind it. The net passed all checks for this k.
pub fn solve(
    net: &Net,
    mode: Mode,
    k: u32,
    target: u32,
    limits: Limits,
) -> Result<(Cover, Vec<i64>), Stop> {
    let cuts = CutSets::new(net, k, limits).ok_or(Stop::GaveUp)?;
    let (phi, labels) = if target == 0 {
        first_reachable(net, mode, &cuts)
    } else {
        let labels = least_labels_over(net, mode, &cuts, target);
        (target, labels.ok_or(Stop::Refused(unreachable(mode)))?)
    };
    Ok((written_cover(net, mode, &cuts, phi, &labels), labels))
}

/// The refusal of a target that no cover of the mode meets.
pub fn unreachable(mode: Mode) -> u8 {
    match mode {
        Mode::Plain => 12,
        Mode::Forward => 22,
    }
}

/// The least period of a checked net; none if it gives up.
pub fn least_period(net: &Net, mode: Mode, k: u32) -> Option<u32> {
    least_period_within(net, mode, k, Limits::default())
}

pub fn least_period_within(net: &Net, mode: Mode, k: u32, limits: Limits) -> Option<u32> {
    Some(first_reachable(net, mode, &CutSets::new(net, k, limits)?).0)
}

/// The periods 1, 2, ... are tried; the number of gates is always reachable.
fn first_reachable(net: &Net, mode: Mode, cuts: &CutSets) -> (u32, Vec<i64>) {
    let tried = |phi| Some((phi, least_labels_over(net, mode, cuts, phi)?));
    (1..=net.gates.len() as u32)
        .find_map(tried)
        .expect("no period is reachable")
}

/// One LUT for each chosen root, by rising root.
fn written_cover(net: &Net, mode: Mode, cuts: &CutSets, phi: u32, labels: &[i64]) -> Cover {
    let mut todo: Vec<usize> = net.outputs.iter().map(|output| output.source).collect();
    let mut roots = BTreeSet::new();
    let mut luts = Vec::new();
    while let Some(v) = todo.pop() {
        if net.is_gate(v) && roots.insert(v) {
            let leaves = chosen_cut(net, mode, cuts, labels, phi, v).leaves.clone();
            todo.extend(leaves.iter().map(|leaf| leaf.node));
            let table = lut_table(net, v, &leaves);
            luts.push(Lut {
                root: v,
                leaves,
                lag: lag_of(labels[v], phi),
                table,
            });
        }
    }
    luts.sort_by_key(|lut| lut.root);
    Cover { period: phi, luts }
}
