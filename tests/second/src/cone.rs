//! The cone that a leaf set cuts off, and the table of a LUT.

use crate::net::{Net, NodeCopy};
use std::collections::BTreeMap;

/// The cone of gate v whose leaf set is `leaves`, rising; none if they are no k-cut
/// of v for k their number: the walk back from v:0 meets an input that is no leaf,
/// has no end, or leaves a leaf untouched, or v:0 is a leaf itself.
/// The net passed the checks 9 and 10.
pub fn cone_of(net: &Net, v: usize, leaves: &[NodeCopy]) -> Option<Vec<NodeCopy>> {
    let root = NodeCopy { node: v, d: 0 };
    let mut touched = vec![false; leaves.len()];
    // A cone with n leaves has at most n copies of a gate; with more the walk has no end.
    let most = leaves.len() * net.gates.len();
    let mut cone = vec![root];
    if leaves.contains(&root) {
        return None;
    }
    let mut next = 0;
    while next < cone.len() {
        for feed in net.feeds(cone[next]) {
            if let Some(j) = leaves.iter().position(|&leaf| leaf == feed) {
                touched[j] = true;
            } else if !net.is_gate(feed.node) {
                return None;
            } else if !cone.contains(&feed) {
                cone.push(feed);
            }
        }
        if cone.len() > most {
            return None;
        }
        next += 1;
    }
    cone.sort_unstable();
    touched.iter().all(|&t| t).then_some(cone)
}

/// The value of v:0 for each choice of leaf values, leaf j being bit j.
pub fn lut_table(net: &Net, v: usize, leaves: &[NodeCopy]) -> u64 {
    let choices = 0..1u64 << leaves.len();
    choices
        .filter(|&choice| lut_value(net, v, leaves, choice))
        .map(|choice| 1 << choice)
        .sum()
}

/// The value of v:0 where leaf j carries bit j of a choice; further bits are on no leaf.
pub fn lut_value(net: &Net, v: usize, leaves: &[NodeCopy], choice: u64) -> bool {
    let carried = |(j, &leaf): (usize, &NodeCopy)| (leaf, choice >> j & 1 == 1);
    let mut known: BTreeMap<NodeCopy, bool> = leaves.iter().enumerate().map(carried).collect();
    value(net, NodeCopy { node: v, d: 0 }, &mut known)
}

/// The value of a gate's copy from the known ones.
fn value(net: &Net, copy: NodeCopy, known: &mut BTreeMap<NodeCopy, bool>) -> bool {
    if let Some(&bit) = known.get(&copy) {
        return bit;
    }
    let mut index = 0;
    for (j, feed) in net.feeds(copy).enumerate() {
        index |= u32::from(value(net, feed, known)) << j;
    }
    let bit = net.gate(copy.node).table >> index & 1 == 1;
    known.insert(copy, bit);
    bit
}
