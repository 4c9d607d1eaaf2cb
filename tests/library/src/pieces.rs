//! The pieces of mark one by one, each against the second mapper's own function for it:
//! the reader (4 to 8), the checks (9 to 11), the cone walk (14) and the tables (15).

use crate::compare::{Sides, LIMITS};
use crate::inputs::{deep, some_k, some_net, some_section};
use crate::nets::{line, wide_cone};
use second::bytes::table_mask;
use second::damage::{damaged_net, random_leaf};
use second::encode::{encode, encode_with_holes, random_section, with_section};
use second::generate::{random_net, wild_net, Shape};
use second::jobs::SCRATCH_BYTES;
use second::{
    all_cuts_within, check_net, cone_of, lut_table, parse_net, write_record, Answer, Cover, Lut,
    Net, NodeCopy, Pin, Random,
};
use std::collections::BTreeSet;

impl Sides {
    /// A net record with an empty candidate, which is refused with 13 where the net passes.
    pub fn net_alone(&mut self, random: &mut Random, net: &[u8], k: u32) {
        let checked = parse_net(net, k).and_then(|net| check_net(&net));
        let number = if !(2..=6).contains(&k) {
            1
        } else {
            checked.err().unwrap_or(13)
        };
        let expected = Some(Answer::Refused(number));
        self.mark(random, net, k, &[], SCRATCH_BYTES + 1, expected);
    }

    /// The reader: random, damaged, truncated and lengthened net bytes.
    pub fn reader_piece(&mut self, random: &mut Random) {
        let (mut net, pins) = some_net(random);
        match random.below(8) {
            0 => net.truncate(random.below(net.len() + 1)),
            1 => net.extend((0..random.within(1, 3)).map(|_| random.byte())),
            2..=5 => net = damaged_net(random, &net),
            _ => {}
        }
        let k = match random.below(4) {
            0 => random.within(2, 6) as u32,
            _ => some_k(random, pins),
        };
        self.net_alone(random, &net, k);
    }

    /// The checks: nets that are read, with registerless loops, gates that no input
    /// reaches and gates that lead nowhere.
    pub fn checks_piece(&mut self, random: &mut Random) {
        let gates = random.pick(&[1, 2, 3, 5, 8, 16, 32]);
        let pins = random.within(1, 3);
        let shape = Shape::any(random, gates, pins);
        let net = match random.below(4) {
            0 => wild_net(random, &shape),
            _ => {
                let mut net = random_net(random, &shape);
                for _ in 0..random.below(4) {
                    rewire(random, &mut net);
                }
                net
            }
        };
        let k = random.within(pins.max(2), 6) as u32;
        let bytes = encode_with_holes(&net, random);
        let bytes = some_section(random, bytes);
        self.net_alone(random, &bytes, k);
    }

    /// LUTs of a random net in a record: 14 if the leaves of one are no cut, else 15 if
    /// one has a bit of its table changed, else what the second mapper says. `near` is
    /// for leaves that are nearly cuts; without it all are cuts.
    pub fn luts_piece(&mut self, random: &mut Random, near: bool) {
        let gates = random.pick(&[1, 2, 4, 8, 12, 32]);
        let pins = random.within(1, 6);
        let shape = match random.below(2) {
            0 => Shape::any(random, gates, pins),
            _ => deep(random, gates.max(2), pins),
        };
        let net = match random.below(20) {
            0 => wide_cone(),
            1 => line(32, random.below(4) as u32),
            _ => random_net(random, &shape),
        };
        let widest = net.gates.iter().map(|gate| gate.pins.len()).max();
        let k = random.within(widest.unwrap_or(0).max(2), 6) as u32;
        for _ in 0..8 {
            self.luts_of(random, &net, k, near);
        }
    }

    /// One to three LUTs of a net in a record.
    pub fn luts_of(&mut self, random: &mut Random, net: &Net, k: u32, near: bool) {
        let lut = |random: &mut Random, root| some_lut(random, net, k, root, near);
        self.luts_by(random, net, k, lut);
    }

    /// One to three LUTs of a net with these leaves, or nearly these, in a record.
    pub fn luts_near(&mut self, random: &mut Random, net: &Net, k: u32, leaves: &[NodeCopy]) {
        let lut = |random: &mut Random, root| {
            let leaves = nearly(random, net, root, leaves.to_vec(), k);
            Some(lut_over(random, net, root, leaves))
        };
        self.luts_by(random, net, k, lut);
    }

    fn luts_by(
        &mut self,
        random: &mut Random,
        net: &Net,
        k: u32,
        lut: impl Fn(&mut Random, usize) -> Option<(Lut, Option<u8>)>,
    ) {
        let mut roots: Vec<usize> = net.gate_nodes().collect();
        random.shuffle(&mut roots);
        roots.truncate(random.pick(&[1, 1, 1, 2, 3]));
        if random.chance(20) {
            roots = vec![net.nodes() - 1];
        }
        roots.sort_unstable();
        let luts = roots.into_iter().map(|root| lut(random, root));
        let Some(luts) = luts.collect::<Option<Vec<_>>>() else {
            self.tally.skipped += 1;
            return;
        };
        let refusal = luts.iter().filter_map(|(_, refusal)| *refusal).min();
        let cover = Cover {
            period: random.within(1, 32) as u32,
            luts: luts.into_iter().map(|(lut, _)| lut).collect(),
        };
        let (mut bytes, record) = (encode(net), write_record(&cover));
        if random.chance(20) {
            bytes = with_section(&bytes, &random_section(net.nodes(), random));
        }
        let expected = refusal.map(Answer::Refused);
        self.mark(random, &bytes, k, &record, SCRATCH_BYTES, expected);
    }
}

/// One change of a pin or an output; it may add a loop, or cut gates off on either side.
fn rewire(random: &mut Random, net: &mut Net) {
    let node = random.below(net.nodes());
    let at = random.below(net.gates.len());
    let gate = &mut net.gates[at];
    let pin: &mut Pin = match random.below(4) {
        0 => {
            let at = random.below(net.outputs.len());
            &mut net.outputs[at]
        }
        1 => {
            // All pins read one node.
            gate.pins.iter_mut().for_each(|pin| pin.source = node);
            &mut gate.pins[0]
        }
        _ => {
            let at = random.below(gate.pins.len());
            &mut gate.pins[at]
        }
    };
    if random.chance(50) {
        pin.source = node;
    }
    pin.count = random.pick(&[0, 0, pin.count, 1]);
}

/// A LUT, and the refusal that its leaves or its table ask for. None if the root has too
/// many cuts.
fn some_lut(
    random: &mut Random,
    net: &Net,
    k: u32,
    root: usize,
    near: bool,
) -> Option<(Lut, Option<u8>)> {
    let far = input_cut(net, root, k as usize).filter(|_| random.chance(50));
    let mut leaves = match far {
        Some(leaves) => leaves,
        None => {
            let cuts = all_cuts_within(net, root, k, LIMITS)?;
            cuts[random.below(cuts.len())].leaves.clone()
        }
    };
    if near {
        leaves = nearly(random, net, root, leaves, k);
    }
    Some(lut_over(random, net, root, leaves))
}

/// Leaves with none to two changes.
fn nearly(
    random: &mut Random,
    net: &Net,
    root: usize,
    mut leaves: Vec<NodeCopy>,
    k: u32,
) -> Vec<NodeCopy> {
    for _ in 0..random.below(3) {
        leaves = moved(random, net, root, leaves, k as usize);
    }
    leaves
}

/// A LUT with these leaves, and the refusal that they or its table ask for.
fn lut_over(
    random: &mut Random,
    net: &Net,
    root: usize,
    leaves: Vec<NodeCopy>,
) -> (Lut, Option<u8>) {
    let n = leaves.len();
    let (table, refusal) = match cone_of(net, root, &leaves) {
        None => (random.word() & table_mask(n), Some(14)),
        Some(_) => {
            let table = lut_table(net, root, &leaves);
            if random.chance(50) {
                (table ^ 1 << random.below(1 << n), Some(15))
            } else {
                (table, None)
            }
        }
    };
    let lag = random.pick(&[0, 0, 1, -1, 127, -128]);
    let lut = Lut {
        root,
        leaves,
        lag,
        table,
    };
    (lut, refusal)
}

/// The cut of input copies alone, if the root has one: its largest cone.
fn input_cut(net: &Net, root: usize, k: usize) -> Option<Vec<NodeCopy>> {
    let mut leaves = BTreeSet::new();
    let mut cone = vec![NodeCopy { node: root, d: 0 }];
    let mut next = 0;
    while next < cone.len() {
        for feed in net.feeds(cone[next]) {
            if !net.is_gate(feed.node) {
                leaves.insert(feed);
            } else if !cone.contains(&feed) {
                cone.push(feed);
            }
        }
        if leaves.len() > k || cone.len() > k * net.gates.len() {
            return None;
        }
        next += 1;
    }
    Some(leaves.into_iter().collect())
}

/// Leaves with one change: dropped, added, another node, another d, the root itself. They
/// rise again, and are at least one and at most k.
fn moved(
    random: &mut Random,
    net: &Net,
    root: usize,
    leaves: Vec<NodeCopy>,
    k: usize,
) -> Vec<NodeCopy> {
    let mut other = leaves.clone();
    let at = random.below(other.len());
    match random.below(9) {
        0 => {
            other.remove(at);
        }
        1 | 2 => other.push(random_leaf(random, net)),
        3 => other[at] = random_leaf(random, net),
        4 => other[at].node = random.below(net.nodes()),
        5 => other[at].d = (other[at].d + 1).min(65_535),
        6 => other[at].d = random.pick(&[other[at].d.saturating_sub(1), 576, 65_535]),
        7 => other[at].d = (other[at].d | 1 << random.within(8, 15)).min(65_535),
        _ => other[at] = NodeCopy { node: root, d: 0 },
    }
    other.sort_unstable();
    other.dedup();
    if (1..=k).contains(&other.len()) {
        other
    } else {
        leaves
    }
}

/// A net record of each kind of change: every byte with every value, every truncation,
/// and one more byte.
pub fn every_change(net: &[u8]) -> Vec<Vec<u8>> {
    let mut all: Vec<Vec<u8>> = (0..net.len()).map(|end| net[..end].to_vec()).collect();
    for at in 0..net.len() {
        for value in 0..=255 {
            let mut other = net.to_vec();
            other[at] = value;
            all.push(other);
        }
    }
    all.push([net, &[0]].concat());
    all
}
