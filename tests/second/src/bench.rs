//! A net run on the bench (document 02, E5), step by step: gates in an order in which a pin without
//! registers reads an earlier gate, with the last three values of each node kept.

use crate::jobs::LONG;
use crate::net::{read_with_section, Gate, Net, Pin, Section};

/// The most steps that are run.
pub const MOST_STEPS: usize = 65_535;

/// A net between two steps.
pub struct Bench<'a> {
    pub(crate) net: &'a Net,
    order: Vec<usize>,
    /// Each node's values at the last step and one, two and three steps before it.
    values: Vec<[bool; 4]>,
}

impl<'a> Bench<'a> {
    /// Before step 0. The net passed the checks, the section has a byte for each node.
    pub fn new(net: &'a Net, section: &[u8]) -> Bench<'a> {
        let past = |&byte: &u8| [0, 1, 2, 3].map(|bit| byte >> bit & 1 == 1);
        Bench {
            net,
            order: net.order().expect("a loop has no register"),
            values: section.iter().map(past).collect(),
        }
    }

    /// The same net behind the steps of these pairs.
    pub fn after(net: &'a Net, section: &[u8], pairs: &[u8]) -> Bench<'a> {
        let mut bench = Bench::new(net, section);
        for inputs in steps(pairs) {
            bench.step(inputs);
        }
        bench
    }

    /// The next step, with input i in bit i: the values of the outputs.
    pub fn step(&mut self, inputs: u16) -> Vec<bool> {
        for (node, values) in self.values.iter_mut().enumerate() {
            values.rotate_right(1);
            if node < self.net.inputs {
                values[0] = inputs >> node & 1 == 1;
            }
        }
        for &gate in &self.order {
            let Gate { pins, table } = self.net.gate(gate);
            let mut index = 0;
            for (j, pin) in pins.iter().enumerate() {
                index |= u32::from(self.read(pin)) << j;
            }
            self.values[gate][0] = table >> index & 1 == 1;
        }
        self.net
            .outputs
            .iter()
            .map(|output| self.read(output))
            .collect()
    }

    /// Each node's value at the last step.
    pub fn now(&self) -> Vec<bool> {
        self.values.iter().map(|values| values[0]).collect()
    }

    /// Each node's last three values, as a section has them.
    pub fn section(&self) -> Section {
        let byte = |[one, two, three, _]: &[bool; 4]| {
            u8::from(*one) | u8::from(*two) << 1 | u8::from(*three) << 2
        };
        self.values.iter().map(byte).collect()
    }

    fn read(&self, pin: &Pin) -> bool {
        self.values[pin.source][pin.count as usize]
    }
}

/// The inputs of each step: two bytes, low first. A lone last byte is no step.
pub fn steps(pairs: &[u8]) -> impl Iterator<Item = u16> + '_ {
    let step = |pair: &[u8]| u16::from_le_bytes([pair[0], pair[1]]);
    pairs.chunks_exact(2).map(step)
}

/// A line for each step of these pairs, or the number of the refusal.
pub fn bench(k: u32, net: &[u8], pairs: &[u8]) -> Result<String, u8> {
    if !(2..=LONG.k).contains(&k) {
        return Err(1);
    }
    let (net, section) = read_with_section(net, k)?;
    let mut bench = Bench::new(&net, &section.ok_or(21)?);
    let mut text = String::new();
    for inputs in steps(pairs).take(MOST_STEPS) {
        let outputs = bench.step(inputs);
        text.extend(outputs.iter().map(|&bit| if bit { '1' } else { '0' }));
        text.push('\n');
    }
    Ok(text)
}
