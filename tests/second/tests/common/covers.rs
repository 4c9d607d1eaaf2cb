//! Covers of small nets, enumerated outright, and held against labels.

use super::{grown_cuts, ConeAndLeaves};
use second::cuts::Limits;
use second::mark::{check_cover, longest_chain};
use second::{check_net, lag_of, least_labels, least_period, lut_table, solve};
use second::{Cover, Gate, Lut, Mode, Net, Outcome, Pin};
use std::collections::BTreeMap;
use std::ops::RangeInclusive;

pub type Sets = Vec<Vec<ConeAndLeaves>>;

/// The most cones of a gate that are grown.
const MOST_CONES: usize = 3000;

/// The k-cuts of every gate; none if a gate has more than so many cones.
pub fn sets(net: &Net, k: u32, most: usize) -> Option<Sets> {
    net.gate_nodes()
        .map(|v| grown_cuts(net, v, k as usize, k as usize, most))
        .collect()
}

/// Whether a LUT with this cone and lag may stand in a cover of the mode: in a forward
/// one lag and largest d of its members together are at most 0.
pub fn suits(mode: Mode, cut: &ConeAndLeaves, lag: i64) -> bool {
    let members = cut.0.iter().map(|copy| i64::from(copy.d));
    mode == Mode::Plain || lag + members.max().expect("the root") <= 0
}

/// If some cover of the mode with lags within a window meets phi, the least lag that
/// a LUT of each gate has in such covers; any number of LUTs may share a root. A LUT is
/// described by its root, its lag and its depth 1..phi: each connection without registers
/// comes from a smaller depth. All descriptions start as possible. One is struck out when
/// no cut of its root suits the mode and has, for each leaf, a possible feeding LUT. What
/// is left feeds itself, and every cover lies in it.
pub fn least_lags(
    net: &Net,
    sets: &Sets,
    mode: Mode,
    phi: i64,
    lags: RangeInclusive<i64>,
) -> Option<Vec<i64>> {
    let low = *lags.start();
    let gates = net.gates.len();
    let width = (lags.end() - low + 1) as usize;
    let place = |v: usize, lag: i64, depth: i64| {
        ((v - net.inputs) * width + (lag - low) as usize) * phi as usize + depth as usize - 1
    };
    let mut possible = vec![true; gates * width * phi as usize];
    let fed = |possible: &[bool], u: usize, d: i64, lag: i64, depth: i64| {
        if !net.is_gate(u) {
            return d + lag >= 0;
        }
        lags.clone().any(|q| {
            let registers = d + lag - q;
            let shallow = |e: i64| registers > 0 || (registers == 0 && e < depth);
            (1..=phi).any(|e| shallow(e) && possible[place(u, q, e)])
        })
    };
    loop {
        let mut struck = false;
        for (v, set) in net.gate_nodes().zip(sets) {
            for lag in lags.clone() {
                for depth in 1..=phi {
                    let all_fed = |cut: &ConeAndLeaves| {
                        let mut leaves = cut.1.iter();
                        suits(mode, cut, lag)
                            && leaves
                                .all(|leaf| fed(&possible, leaf.node, leaf.d.into(), lag, depth))
                    };
                    let at = place(v, lag, depth);
                    if possible[at] && !set.iter().any(all_fed) {
                        possible[at] = false;
                        struck = true;
                    }
                }
            }
        }
        if !struck {
            break;
        }
    }
    // An output is read like a leaf: lag 0, and any depth may stand before it.
    let mut outputs = net.outputs.iter();
    if !outputs.all(|out| fed(&possible, out.source, out.count.into(), 0, phi + 1)) {
        return None;
    }
    let some_depth = |v, lag| (1..=phi).any(|depth| possible[place(v, lag, depth)]);
    let least = |v| lags.clone().find(|&lag| some_depth(v, lag));
    net.gate_nodes().map(least).collect()
}

/// How many targets are met and how many are not; covers and labels agree on each.
#[derive(Default, Debug)]
pub struct Tally {
    pub met: usize,
    pub unmet: usize,
    /// Nets with too many cones to enumerate.
    pub left: usize,
}

impl Tally {
    /// Some cover of the mode meets a period exactly if labels reach it, and the labels' lags are the least.
    pub fn compare(&mut self, net: &Net, mode: Mode, k: u32) {
        self.compare_within(net, mode, k, MOST_CONES);
    }

    /// The same where a gate may have so many cones.
    pub fn compare_within(&mut self, net: &Net, mode: Mode, k: u32, most: usize) {
        let Some(sets) = sets(net, k, most) else {
            self.left += 1;
            return;
        };
        let most = i64::from(net.most_registers());
        let gates = net.gates.len() as i64;
        for phi in 1..=gates + 1 {
            let lags = -(most + 3)..=gates + 3;
            let by_covers = least_lags(net, &sets, mode, phi, lags);
            let by_labels = match least_labels(net, mode, k, phi as u32) {
                Outcome::Labels(labels) => {
                    let labels = labels[net.inputs..].iter();
                    Some(labels.map(|&label| lag_of(label, phi as u32)).collect())
                }
                _ => None,
            };
            assert_eq!(by_covers, by_labels, "{net:?} k {k} period {phi}");
            self.met += usize::from(by_covers.is_some());
            self.unmet += usize::from(by_covers.is_none());
        }
    }
}

/// Every checked net with these numbers of inputs and gates, two pins a gate, counts
/// 0 and 1, and one output of the last gate.
pub fn each_net(inputs: usize, gates: usize, mut see: impl FnMut(&Net)) {
    let mut pairs = Vec::new();
    let copies = 2 * (inputs + gates);
    for a in 0..copies {
        for b in a..copies {
            let pin = |copy: usize| Pin {
                source: copy / 2,
                count: copy as u32 % 2,
            };
            pairs.push(Gate {
                pins: vec![pin(a), pin(b)],
                table: 8,
            });
        }
    }
    for number in 0..pairs.len().pow(gates as u32) * 2 {
        let output = Pin {
            source: inputs + gates - 1,
            count: (number % 2) as u32,
        };
        let place = |i: usize| number / 2 / pairs.len().pow(i as u32) % pairs.len();
        let gates = (0..gates).map(|i| pairs[place(i)].clone()).collect();
        let net = Net {
            inputs,
            gates,
            outputs: vec![output],
        };
        if check_net(&net).is_ok() {
            see(&net);
        }
    }
}

/// All of those nets of two and three gates with some k.
pub fn all_small_nets(mode: Mode) {
    for (inputs, gates, k) in [
        (1, 2, 2),
        (2, 2, 2),
        (3, 2, 2),
        (1, 3, 2),
        (2, 3, 2),
        (2, 3, 3),
    ] {
        let mut tally = Tally::default();
        each_net(inputs, gates, |net| tally.compare(net, mode, k));
        assert!(
            tally.met > 400 && tally.unmet > 10 && tally.left == 0,
            "{tally:?}"
        );
    }
}

/// Every choice of no LUT or one LUT that suits the mode for each gate, with lags within
/// a window.
fn each_cover(
    net: &Net,
    sets: &Sets,
    mode: Mode,
    lags: RangeInclusive<i64>,
    see: &mut impl FnMut(&Cover),
) {
    let mut choices: Vec<Vec<Option<Lut>>> = Vec::new();
    for (v, set) in net.gate_nodes().zip(sets) {
        let mut own = vec![None];
        for cut in set {
            let leaves = &cut.1;
            let table = lut_table(net, v, leaves);
            for lag in lags.clone().filter(|&lag| suits(mode, cut, lag)) {
                own.push(Some(Lut {
                    root: v,
                    leaves: leaves.clone(),
                    lag,
                    table,
                }));
            }
        }
        choices.push(own);
    }
    let mut at = vec![0; choices.len()];
    loop {
        let picked = at
            .iter()
            .zip(&choices)
            .filter_map(|(&i, own)| own[i].clone());
        see(&Cover {
            period: 32,
            luts: picked.collect(),
        });
        let Some(place) = (0..at.len()).find(|&i| at[i] + 1 < choices[i].len()) else {
            return;
        };
        at[place] += 1;
        at[..place].fill(0);
    }
}

/// The cover that map writes for a period that some cover of the mode meets.
fn written_for(net: &Net, mode: Mode, k: u32, period: u32) -> Cover {
    let solved = solve(net, mode, k, period, Limits::default());
    solved.expect("some cover meets the period").0
}

/// The number of covers of the mode that the marker accepts, where they are few enough to be tried; the
/// shortest period among them is the least one, and none has a LUT with a smaller lag than that of the
/// same root in the cover written for its period.
pub fn count_covers(net: &Net, mode: Mode, k: u32) -> Option<usize> {
    let sets = sets(net, k, MOST_CONES)?;
    let lags = -(net.most_registers().min(3) as i64)..=2;
    let width = (lags.end() - lags.start() + 1) as usize;
    let number: usize = sets.iter().map(|set| set.len() * width + 1).product();
    if net.most_registers() > 3 || number > 20_000 {
        return None;
    }
    let (mut good, mut shortest) = (0, u32::MAX);
    let mut written: BTreeMap<u32, Cover> = BTreeMap::new();
    each_cover(net, &sets, mode, lags, &mut |cover| {
        if !cover.luts.is_empty() && check_cover(net, cover).is_ok() {
            good += 1;
            let period = longest_chain(net, cover);
            shortest = shortest.min(period);
            let key = written
                .entry(period)
                .or_insert_with(|| written_for(net, mode, k, period));
            for lut in &key.luts {
                let mut rivals = cover.luts.iter().filter(|rival| rival.root == lut.root);
                let none_smaller = rivals.all(|rival| lut.lag <= rival.lag);
                assert!(none_smaller, "{net:?} k {k} {cover:?} beside {key:?}");
            }
        }
    });
    assert_eq!(Some(shortest), least_period(net, mode, k), "{net:?} k {k}");
    Some(good)
}
