//! Runs of a net, and of the circuit a cover stands for.

use crate::cover::{Cover, Lut};
use crate::net::Net;
use crate::random::Random;
use std::collections::HashMap;

/// The values of all nodes at the steps from 0 on.
pub struct Run {
    values: Vec<Vec<bool>>,
}

impl Run {
    /// Inputs are random; so is a gate where the value of some pin does not exist yet.
    pub fn random(net: &Net, steps: usize, random: &mut Random) -> Run {
        let order = net.order().expect("a loop has no register");
        let mut run = Run {
            values: Vec::with_capacity(steps),
        };
        for step in 0..steps {
            run.values
                .push((0..net.nodes()).map(|_| random.chance(50)).collect());
            for &v in &order {
                let gate = net.gate(v);
                let mut index = Some(0);
                for (j, pin) in gate.pins.iter().enumerate() {
                    let bit = run.value(pin.source, step as i64 - i64::from(pin.count));
                    index = index
                        .zip(bit)
                        .map(|(index, bit)| index | u32::from(bit) << j);
                }
                if let Some(index) = index {
                    run.values[step][v] = gate.table >> index & 1 == 1;
                }
            }
        }
        run
    }

    /// None at a step that does not exist.
    pub fn value(&self, node: usize, step: i64) -> Option<bool> {
        let at = usize::try_from(step).ok()?;
        self.values.get(at).map(|values| values[node])
    }
}

/// Run the circuit of a good cover beside a random run of the net, with its registers
/// filled from it: under lag r a LUT's value at step t is its root's at step t - r, and
/// each output has its source's value.
pub fn cover_runs_as_net(net: &Net, cover: &Cover, steps: usize, random: &mut Random) -> bool {
    let lags = cover
        .luts
        .iter()
        .map(|lut| lut.lag.abs())
        .max()
        .unwrap_or(0);
    let leaves = cover.luts.iter().flat_map(|lut| &lut.leaves);
    let back = leaves
        .map(|leaf| i64::from(leaf.d))
        .max()
        .unwrap_or(0)
        .max(3)
        + 2 * lags;
    let start = back + lags;
    let end = start + steps as i64;
    let run = Run::random(net, (end + lags) as usize, random);
    let mut circuit = Circuit {
        net,
        cover,
        run: &run,
        start,
        known: HashMap::new(),
    };
    for step in start..end {
        for lut in &cover.luts {
            if circuit.value(lut.root, step) != run.value(lut.root, step - lut.lag) {
                return false;
            }
        }
        for output in &net.outputs {
            let count = i64::from(output.count);
            let lag = cover.lag(net, output.source).expect("a LUT");
            let read = circuit.value(output.source, step - (count - lag));
            if read.is_none() || read != run.value(output.source, step - count) {
                return false;
            }
        }
    }
    true
}

struct Circuit<'a> {
    net: &'a Net,
    cover: &'a Cover,
    run: &'a Run,
    /// Values before this step are taken from the run.
    start: i64,
    known: HashMap<(usize, i64), Option<bool>>,
}

impl Circuit<'_> {
    /// The value of an input or of the LUT with this root.
    fn value(&mut self, node: usize, step: i64) -> Option<bool> {
        if !self.net.is_gate(node) {
            return self.run.value(node, step);
        }
        let cover = self.cover;
        let lut = cover.lut(node)?;
        if step < self.start {
            return self.run.value(node, step - lut.lag);
        }
        if let Some(&value) = self.known.get(&(node, step)) {
            return value;
        }
        let value = self.apply(lut, step);
        self.known.insert((node, step), value);
        value
    }

    fn apply(&mut self, lut: &Lut, step: i64) -> Option<bool> {
        let mut index = 0;
        for (j, leaf) in lut.leaves.iter().enumerate() {
            let lag = self.cover.lag(self.net, leaf.node)?;
            let registers = i64::from(leaf.d) + lut.lag - lag;
            index |= u32::from(self.value(leaf.node, step - registers)?) << j;
        }
        Some(lut.table >> index & 1 == 1)
    }
}
