//! Random nets.

use crate::bytes::table_mask;
use crate::net::{Gate, Net, Output, Pin};
use crate::random::Random;

/// What random nets look like. Pairs are least and most, chances are in percent.
#[derive(Clone, Copy, Debug)]
pub struct Shape {
    pub inputs: (usize, usize),
    pub gates: (usize, usize),
    pub outputs: (usize, usize),
    pub pins: (usize, usize),
    /// The largest count of registers.
    pub count: u32,
    /// A pin or output has registers where it need not.
    pub registers: u32,
    /// A pin reads any gate, its own included, through a register.
    pub back: u32,
    /// A pin repeats the source of an earlier one.
    pub twin: u32,
    /// A pin reads an input.
    pub input: u32,
}

impl Shape {
    /// A shape of nets with at most this many gates and pins a gate.
    pub fn any(random: &mut Random, gates: usize, pins: usize) -> Shape {
        Shape {
            inputs: (1, random.within(1, 16.min(gates + 2))),
            gates: (1, gates),
            outputs: (1, random.within(1, 4)),
            pins: (1, random.within(1, pins)),
            count: random.within(1, 3) as u32,
            registers: random.pick(&[0, 5, 20, 50]),
            back: random.pick(&[0, 10, 30, 60]),
            twin: random.pick(&[0, 5, 30]),
            input: random.pick(&[0, 20, 50]),
        }
    }
}

/// A net of the shape that passes the checks 9, 10 and 11.
pub fn random_net(random: &mut Random, shape: &Shape) -> Net {
    loop {
        if let Some(net) = try_net(random, shape) {
            return net;
        }
    }
}

/// None if more than 16 outputs would be needed.
fn try_net(random: &mut Random, shape: &Shape) -> Option<Net> {
    let inputs = random.within(shape.inputs.0, shape.inputs.1);
    let gates = random.within(shape.gates.0, shape.gates.1);
    // Pins without registers read gates that come earlier in this line.
    let mut line: Vec<usize> = (inputs..inputs + gates).collect();
    random.shuffle(&mut line);
    let mut net = Net {
        inputs,
        gates: Vec::new(),
        outputs: Vec::new(),
    };
    for v in inputs..inputs + gates {
        let earlier = line
            .iter()
            .position(|&u| u == v)
            .expect("a gate of the line");
        net.gates
            .push(random_gate(random, shape, inputs, &line, earlier));
    }
    for _ in 0..random.within(shape.outputs.0, shape.outputs.1) {
        let source = random.below(net.nodes());
        net.outputs.push(Output {
            source,
            count: some_count(random, shape),
        });
    }
    loop {
        let leads = net.leading();
        let Some(&source) = line.iter().rev().find(|&&v| !leads[v]) else {
            return Some(net);
        };
        if net.outputs.len() == 16 {
            return None;
        }
        net.outputs.push(Output {
            source,
            count: some_count(random, shape),
        });
    }
}

fn random_gate(
    random: &mut Random,
    shape: &Shape,
    inputs: usize,
    line: &[usize],
    earlier: usize,
) -> Gate {
    let number = random.within(shape.pins.0, shape.pins.1);
    // One pin leads to an input through earlier gates.
    let forward = random.below(number);
    let mut pins: Vec<Pin> = Vec::new();
    for j in 0..number {
        let pin = if j != forward && random.chance(shape.back) {
            Pin {
                source: random.pick(line),
                count: random.within(1, shape.count as usize) as u32,
            }
        } else if j != forward && j > 0 && random.chance(shape.twin) {
            let first = pins[random.below(j)];
            twin(random, shape, first, &line[..earlier], inputs)
        } else {
            let read_input = earlier == 0 || random.chance(shape.input);
            let source = match read_input {
                true => random.below(inputs),
                false => line[random.below(earlier)],
            };
            Pin {
                source,
                count: some_count(random, shape),
            }
        };
        pins.push(pin);
    }
    let table = random_table(random, number);
    Gate { pins, table }
}

/// The same source again, with the same count or another that is allowed.
fn twin(random: &mut Random, shape: &Shape, pin: Pin, earlier: &[usize], inputs: usize) -> Pin {
    let needs_register = pin.source >= inputs && !earlier.contains(&pin.source);
    let count = match random.below(3) {
        0 => pin.count,
        1 if !needs_register => 0,
        _ => random.within(1, shape.count as usize) as u32,
    };
    Pin {
        source: pin.source,
        count,
    }
}

fn some_count(random: &mut Random, shape: &Shape) -> u32 {
    if random.chance(shape.registers) {
        random.within(1, shape.count as usize) as u32
    } else {
        0
    }
}

fn random_table(random: &mut Random, pins: usize) -> u64 {
    let mask = table_mask(pins);
    let last = 1u64 << ((1 << pins) - 1);
    match random.below(8) {
        0 => last,
        1 => mask ^ 1,
        2 => mask ^ last,
        _ => random.word() & mask,
    }
}

/// A net whose pins and outputs read anything: it may fail the checks 9, 10 and 11.
pub fn wild_net(random: &mut Random, shape: &Shape) -> Net {
    let inputs = random.within(shape.inputs.0, shape.inputs.1);
    let gates = random.within(shape.gates.0, shape.gates.1);
    let nodes = inputs + gates;
    let mut net = Net {
        inputs,
        gates: Vec::new(),
        outputs: Vec::new(),
    };
    let wild_pin = |random: &mut Random| Pin {
        source: random.below(nodes),
        count: some_count(random, shape),
    };
    for _ in 0..gates {
        let number = random.within(shape.pins.0, shape.pins.1);
        let pins = (0..number).map(|_| wild_pin(random)).collect();
        net.gates.push(Gate {
            pins,
            table: random_table(random, number),
        });
    }
    for _ in 0..random.within(shape.outputs.0, shape.outputs.1) {
        net.outputs.push(wild_pin(random));
    }
    net
}
