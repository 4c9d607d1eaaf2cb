//! Runs of a net by the sentences that define them (document 02, E5).

use second::{Net, Pin};
use std::collections::HashMap;

/// Pairs with these numbers.
pub fn pairs(steps: &[u16]) -> Vec<u8> {
    steps.iter().flat_map(|step| step.to_le_bytes()).collect()
}

/// The value of a node at a step, as the sentences have it: before step 0 the section; an input's bit of
/// that step; a gate's from its pins; a pin's from the node behind it, its registers' number of steps earlier.
pub struct Told<'a> {
    net: &'a Net,
    section: &'a [u8],
    steps: &'a [u16],
    known: HashMap<(usize, i64), bool>,
}

impl<'a> Told<'a> {
    pub fn new(net: &'a Net, section: &'a [u8], steps: &'a [u16]) -> Told<'a> {
        Told {
            net,
            section,
            steps,
            known: HashMap::new(),
        }
    }

    pub fn value(&mut self, node: usize, step: i64) -> bool {
        if step < 0 {
            return self.section[node] >> (-1 - step) & 1 == 1;
        }
        if !self.net.is_gate(node) {
            return self.steps[step as usize] >> node & 1 == 1;
        }
        if let Some(&value) = self.known.get(&(node, step)) {
            return value;
        }
        let net = self.net;
        let gate = net.gate(node);
        let mut index = 0;
        for (j, pin) in gate.pins.iter().enumerate() {
            index |= u32::from(self.read(pin, step)) << j;
        }
        let value = gate.table >> index & 1 == 1;
        self.known.insert((node, step), value);
        value
    }

    pub fn read(&mut self, pin: &Pin, step: i64) -> bool {
        self.value(pin.source, step - i64::from(pin.count))
    }
}
