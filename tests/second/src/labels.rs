//! The least labelling over all k-cuts, lags, and the chosen cut.

use crate::cone::cone_of;
use crate::cuts::{Cut, CutSets, Limits};
use crate::net::Net;

/// Which covers are wanted: all of them, or the forward ones (document 02, E6). A cover is forward if for
/// each LUT its lag and the largest d of its cone's members together are at most 0.
#[derive(Clone, Copy, Debug, PartialEq, Eq)]
pub enum Mode {
    Plain,
    Forward,
}

impl Mode {
    /// The largest label of a gate that may take this cut: in forward mode label + phi*d is at most phi for
    /// each member.
    fn most(self, cut: &Cut, phi: i64) -> i64 {
        match self {
            Mode::Plain => i64::MAX,
            Mode::Forward => phi * (1 - i64::from(cut.deepest)),
        }
    }
}

/// What a period gives.
#[derive(Clone, Debug, PartialEq, Eq)]
pub enum Outcome {
    /// The least labelling, node by node; the period is reachable.
    Labels(Vec<i64>),
    Unreachable,
    GaveUp,
}

/// The least labelling of a checked net for the period phi.
pub fn least_labels(net: &Net, mode: Mode, k: u32, phi: u32) -> Outcome {
    match CutSets::new(net, k, Limits::default()) {
        Some(cuts) => match least_labels_over(net, mode, &cuts, phi) {
            Some(labels) => Outcome::Labels(labels),
            None => Outcome::Unreachable,
        },
        None => Outcome::GaveUp,
    }
}

/// The same over cuts already listed; none if the period is not reachable.
pub fn least_labels_over(net: &Net, mode: Mode, cuts: &CutSets, phi: u32) -> Option<Vec<i64>> {
    rise(net, mode, cuts, phi, floors(net, phi))
}

/// Raise labels from a lower bound of all labellings until each gate has a cut that fits
/// its label. None once no cut fits any larger one, or a label is above its ceiling: then
/// no labelling satisfies the outputs.
pub fn rise(net: &Net, mode: Mode, cuts: &CutSets, phi: u32, floors: Vec<i64>) -> Option<Vec<i64>> {
    let phi = i64::from(phi);
    let ceilings: Vec<i64> = behind(net)
        .iter()
        .map(|r| phi * (1 + i64::from(*r)))
        .collect();
    let order = net.order().expect("a loop has no register");
    let mut labels = floors;
    // For each gate a cut that may still fit its label.
    let mut witness = vec![0; net.nodes()];
    loop {
        let mut changed = false;
        for &v in &order {
            let set = cuts.of(v);
            if fits(&set[witness[v]], mode, &labels, phi, labels[v]) {
                continue;
            }
            let mut least = None;
            for (at, cut) in set.iter().enumerate() {
                let label = label_from(cut, mode, &labels, phi, labels[v]);
                if label.is_some() && (least.is_none() || label < least) {
                    least = label;
                    witness[v] = at;
                    if label == Some(labels[v]) {
                        break;
                    }
                }
            }
            let label = least?;
            if label > labels[v] {
                labels[v] = label;
                changed = true;
                if label > ceilings[v] {
                    return None;
                }
            }
        }
        if !changed {
            break;
        }
    }
    let met = |source: usize, count: u32| labels[source] - phi * i64::from(count) <= phi;
    net.outputs
        .iter()
        .all(|output| met(output.source, output.count))
        .then_some(labels)
}

/// The largest of label(u) - phi*d + 1 over the leaves.
pub fn height(cut: &Cut, labels: &[i64], phi: i64) -> i64 {
    let above = |leaf: &crate::net::NodeCopy| labels[leaf.node] - phi * i64::from(leaf.d) + 1;
    cut.leaves
        .iter()
        .map(above)
        .max()
        .expect("a cut has a leaf")
}

/// The least label from `low` on that a cut fits: at least its height, at most what the mode allows.
fn label_from(cut: &Cut, mode: Mode, labels: &[i64], phi: i64, low: i64) -> Option<i64> {
    let label = height(cut, labels, phi).max(low);
    (label <= mode.most(cut, phi)).then_some(label)
}

/// Whether a cut fits its gate's label.
fn fits(cut: &Cut, mode: Mode, labels: &[i64], phi: i64, label: i64) -> bool {
    label_from(cut, mode, labels, phi, label) == Some(label)
}

/// A lower bound of every labelling: 1 - phi times the fewest registers on a path
/// from an input to the gate. On that path lies a leaf of the gate's cut.
fn floors(net: &Net, phi: u32) -> Vec<i64> {
    let floor = |(v, r): (usize, &u32)| match net.is_gate(v) {
        true => 1 - i64::from(phi) * i64::from(*r),
        false => 0,
    };
    before(net).iter().enumerate().map(floor).collect()
}

/// The fewest registers on a path from an input to each node.
fn before(net: &Net) -> Vec<u32> {
    let mut fewest = vec![u32::MAX; net.nodes()];
    fewest[..net.inputs].fill(0);
    loop {
        let mut changed = false;
        for v in net.gate_nodes() {
            for pin in &net.gate(v).pins {
                let sum = fewest[pin.source].saturating_add(pin.count);
                if sum < fewest[v] {
                    fewest[v] = sum;
                    changed = true;
                }
            }
        }
        if !changed {
            return fewest;
        }
    }
}

/// The fewest registers on a path from each node through pins and then an output's
/// own count; unread inputs keep a number that nothing uses.
fn behind(net: &Net) -> Vec<u32> {
    let mut fewest = vec![u32::MAX; net.nodes()];
    for output in &net.outputs {
        fewest[output.source] = fewest[output.source].min(output.count);
    }
    loop {
        let mut changed = false;
        for v in net.gate_nodes() {
            for pin in &net.gate(v).pins {
                let sum = fewest[v].saturating_add(pin.count);
                if sum < fewest[pin.source] {
                    fewest[pin.source] = sum;
                    changed = true;
                }
            }
        }
        if !changed {
            return fewest;
        }
    }
}

/// The label divided by phi, rounded up, less 1.
pub fn lag_of(label: i64, phi: u32) -> i64 {
    let phi = i64::from(phi);
    let down = label.div_euclid(phi);
    let up = down + i64::from(label.rem_euclid(phi) != 0);
    up - 1
}

/// Of the cuts of v that fit its label, those with fewest leaves; of these the one whose
/// cone lies inside all the others' cones.
pub fn chosen_cut<'a>(
    net: &Net,
    mode: Mode,
    cuts: &'a CutSets,
    labels: &[i64],
    phi: u32,
    v: usize,
) -> &'a Cut {
    let fits = |cut: &&Cut| fits(cut, mode, labels, i64::from(phi), labels[v]);
    let candidates: Vec<&Cut> = cuts.of(v).iter().filter(fits).collect();
    let fewest = candidates.iter().map(|cut| cut.leaves.len()).min();
    let fewest = fewest.expect("a label without a cut");
    let mut tied = Vec::new();
    for cut in candidates
        .into_iter()
        .filter(|cut| cut.leaves.len() == fewest)
    {
        tied.push((cut, cone_of(net, v, &cut.leaves).expect("a cut has a cone")));
    }
    let (chosen, inner) = tied
        .iter()
        .min_by_key(|(_, cone)| cone.len())
        .expect("a cut");
    for (_, cone) in &tied {
        let inside = inner.iter().all(|copy| cone.binary_search(copy).is_ok());
        assert!(inside, "no smallest cone");
    }
    chosen
}
