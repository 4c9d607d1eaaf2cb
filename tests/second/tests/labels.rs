//! Least labellings and chosen cuts against trying all of them.

mod common;

use common::{grown_cuts, tiny_net, ConeAndLeaves};
use second::labels::rise;
use second::{least_labels, least_labels_over, solve, CutSets, Limits, Mode, Net, Outcome, Random};

const MODES: [Mode; 2] = [Mode::Plain, Mode::Forward];

/// The largest of label(u) - phi*d + 1 over the leaves is at most the label; in forward mode
/// label + phi*d is at most phi for each member.
fn fits(cut: &ConeAndLeaves, mode: Mode, labels: &[i64], phi: i64, label: i64) -> bool {
    let (cone, leaves) = cut;
    let mut heights = leaves.iter();
    let mut members = cone.iter();
    heights.all(|leaf| labels[leaf.node] - phi * i64::from(leaf.d) < label)
        && (mode == Mode::Plain || members.all(|copy| label + phi * i64::from(copy.d) <= phi))
}

fn is_labelling(
    net: &Net,
    mode: Mode,
    cuts: &[Vec<ConeAndLeaves>],
    labels: &[i64],
    phi: i64,
) -> bool {
    let mut gates = net.gate_nodes().zip(cuts);
    gates.all(|(v, set)| {
        set.iter()
            .any(|cut| fits(cut, mode, labels, phi, labels[v]))
    })
}

fn outputs_hold(net: &Net, labels: &[i64], phi: i64) -> bool {
    net.outputs
        .iter()
        .all(|out| labels[out.source] - phi * i64::from(out.count) <= phi)
}

/// All gate labels within bounds, one list after the other.
fn each_labels(net: &Net, low: i64, high: i64, mut see: impl FnMut(&[i64])) {
    let mut labels = vec![0; net.nodes()];
    labels[net.inputs..].fill(low);
    loop {
        see(&labels);
        let Some(v) = net.gate_nodes().find(|&v| labels[v] < high) else {
            return;
        };
        labels[v] += 1;
        labels[net.inputs..v].fill(low);
    }
}

/// The least labelling among all that there are, if it satisfies the outputs; none if there are too many.
fn least_by_trying(
    net: &Net,
    mode: Mode,
    cuts: &[Vec<ConeAndLeaves>],
    phi: i64,
) -> Option<Outcome> {
    // No labelling is lower, and no least labelling is above the number of gates.
    let low = 1 - phi * i64::from(net.most_registers()) - 1;
    let high = net.gates.len() as i64 + 1;
    if (high - low + 1).pow(net.gates.len() as u32) > 5000 {
        return None;
    }
    let mut all: Vec<Vec<i64>> = Vec::new();
    each_labels(net, low, high, |labels| {
        if is_labelling(net, mode, cuts, labels, phi) {
            all.push(labels.to_vec());
        }
    });
    let least = |node: usize| all.iter().map(|labels| labels[node]).min();
    let least: Option<Vec<i64>> = (0..net.nodes()).map(least).collect();
    Some(match least {
        Some(labels) if outputs_hold(net, &labels, phi) => {
            assert!(all.contains(&labels));
            Outcome::Labels(labels)
        }
        _ => Outcome::Unreachable,
    })
}

#[test]
fn least_labelling_by_trying_all() {
    let mut random = Random::new(21);
    // By mode: reachable, unreachable.
    let mut counts = [[0; 2]; 2];
    for _ in 0..2500 {
        let (net, k) = tiny_net(&mut random);
        let grown = |v| grown_cuts(&net, v, k as usize, k as usize, 2000);
        let Some(cuts) = net.gate_nodes().map(grown).collect::<Option<Vec<_>>>() else {
            continue;
        };
        for phi in 1..=net.gates.len() as i64 {
            for (mode, counts) in MODES.into_iter().zip(&mut counts) {
                let Some(expected) = least_by_trying(&net, mode, &cuts, phi) else {
                    continue;
                };
                counts[usize::from(expected == Outcome::Unreachable)] += 1;
                let found = least_labels(&net, mode, k, phi as u32);
                assert_eq!(found, expected, "{net:?} {mode:?} {k} {phi}");
            }
        }
    }
    for [reachable, unreachable] in counts {
        assert!(reachable > 1000 && unreachable > 100, "{counts:?}");
    }
}

#[test]
fn chosen_cuts_by_comparing_all() {
    let mut random = Random::new(22);
    let mut chosen = [0; 2];
    for round in 0..6000 {
        let (net, k) = tiny_net(&mut random);
        let mode = MODES[round % 2];
        let (cover, labels) = solve(&net, mode, k, 0, Limits::default()).unwrap();
        let phi = i64::from(cover.period);
        for lut in &cover.luts {
            let v = lut.root;
            let Some(mut cuts) = grown_cuts(&net, v, k as usize, k as usize, 2000) else {
                continue;
            };
            cuts.retain(|cut| fits(cut, mode, &labels, phi, labels[v]));
            let fewest = cuts.iter().map(|cut| cut.1.len()).min().unwrap();
            cuts.retain(|cut| cut.1.len() == fewest);
            let inside = |cut: &&ConeAndLeaves| {
                cuts.iter()
                    .all(|other| cut.0.iter().all(|copy| other.0.contains(copy)))
            };
            let inner: Vec<&ConeAndLeaves> = cuts.iter().filter(inside).collect();
            assert_eq!(inner.len(), 1);
            assert_eq!(inner[0].1, lut.leaves);
            chosen[round % 2] += 1;
        }
    }
    assert!(chosen.iter().all(|&luts| luts > 3000), "{chosen:?}");
}

#[test]
fn labels_from_a_lower_floor_are_the_same() {
    let mut random = Random::new(23);
    for _ in 0..2000 {
        let k = random.within(2, 5);
        let shape = second::generate::Shape::any(&mut random, 8, k);
        let net = second::generate::random_net(&mut random, &shape);
        let cuts = CutSets::new(&net, k as u32, Limits::default()).unwrap();
        for phi in 1..=net.gates.len() as u32 {
            let low = 1 - i64::from(phi) * i64::from(net.most_registers());
            let mut floors = vec![low; net.nodes()];
            floors[..net.inputs].fill(0);
            for mode in MODES {
                let labels = least_labels_over(&net, mode, &cuts, phi);
                assert_eq!(labels, rise(&net, mode, &cuts, phi, floors.clone()));
            }
        }
    }
}
