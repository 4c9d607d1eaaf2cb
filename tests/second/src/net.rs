//! The net: its record read with the refusals 4 to 8, with a last section or without, and the checks 9 to 11.

use crate::bytes::Walk;

/// Limits of the net record.
pub const MOST_INPUTS: u8 = 16;
pub const MOST_GATES: u8 = 32;
pub const MOST_OUTPUTS: u8 = 16;
pub const MOST_COUNT: u8 = 3;

/// The bit of the first byte that says that a section follows (document 02, E5), and the largest byte of one.
pub const SECTION_BIT: u8 = 1 << 7;
pub const MOST_PAST: u8 = 7;

/// A pin reads `source` through `count` registers.
#[derive(Clone, Copy, Debug, PartialEq, Eq)]
pub struct Pin {
    pub source: usize,
    pub count: u32,
}

/// An output reads a node as a pin does.
pub type Output = Pin;

/// Bit i of the table is the value where pin j carries bit j of i.
#[derive(Clone, Debug, PartialEq, Eq)]
pub struct Gate {
    pub pins: Vec<Pin>,
    pub table: u64,
}

/// Inputs are the nodes 0 to I-1, gates the nodes I to I+G-1.
#[derive(Clone, Debug, PartialEq, Eq)]
pub struct Net {
    pub inputs: usize,
    pub gates: Vec<Gate>,
    pub outputs: Vec<Output>,
}

/// A byte for each node, inputs first: bits 0 to 2 are its values one, two and three steps before step 0.
pub type Section = Vec<u8>;

/// The copy `node:d`, the node seen d registers back. Ordered by node, then by d.
#[derive(Clone, Copy, Debug, PartialEq, Eq, PartialOrd, Ord, Hash)]
pub struct NodeCopy {
    pub node: usize,
    pub d: u32,
}

impl Net {
    pub fn nodes(&self) -> usize {
        self.inputs + self.gates.len()
    }

    pub fn is_gate(&self, node: usize) -> bool {
        node >= self.inputs
    }

    pub fn gate(&self, node: usize) -> &Gate {
        &self.gates[node - self.inputs]
    }

    /// The numbers of the gates.
    pub fn gate_nodes(&self) -> std::ops::Range<usize> {
        self.inputs..self.nodes()
    }

    /// The copies that feed a gate's copy, pin by pin.
    pub fn feeds(&self, copy: NodeCopy) -> impl Iterator<Item = NodeCopy> + '_ {
        self.gate(copy.node).pins.iter().map(move |pin| NodeCopy {
            node: pin.source,
            d: copy.d + pin.count,
        })
    }

    /// The sum over all gates of the largest count on one of the gate's pins.
    pub fn most_registers(&self) -> u32 {
        let most = |gate: &Gate| gate.pins.iter().map(|pin| pin.count).max().unwrap_or(0);
        self.gates.iter().map(most).sum()
    }

    /// The gates in an order in which a pin without registers reads an earlier gate;
    /// none if a loop has no register.
    pub fn order(&self) -> Option<Vec<usize>> {
        let mut order = Vec::with_capacity(self.gates.len());
        let mut placed = vec![false; self.nodes()];
        placed[..self.inputs].fill(true);
        loop {
            let before = order.len();
            for v in self.gate_nodes() {
                let ready = |pin: &Pin| pin.count > 0 || placed[pin.source];
                if !placed[v] && self.gate(v).pins.iter().all(ready) {
                    placed[v] = true;
                    order.push(v);
                }
            }
            if order.len() == self.gates.len() {
                return Some(order);
            }
            if order.len() == before {
                return None;
            }
        }
    }

    /// Which nodes are reached from an input.
    fn reached(&self) -> Vec<bool> {
        let mut reached = vec![false; self.nodes()];
        reached[..self.inputs].fill(true);
        loop {
            let mut changed = false;
            for v in self.gate_nodes() {
                if !reached[v] && self.gate(v).pins.iter().any(|pin| reached[pin.source]) {
                    reached[v] = true;
                    changed = true;
                }
            }
            if !changed {
                return reached;
            }
        }
    }

    /// Which nodes lead to an output.
    pub fn leading(&self) -> Vec<bool> {
        let mut leads = vec![false; self.nodes()];
        let mut todo: Vec<usize> = self.outputs.iter().map(|output| output.source).collect();
        while let Some(v) = todo.pop() {
            if !leads[v] {
                leads[v] = true;
                if self.is_gate(v) {
                    todo.extend(self.gate(v).pins.iter().map(|pin| pin.source));
                }
            }
        }
        leads
    }
}

/// Read a net record; 4 to 8, the first met counting. A section changes nothing of the net.
pub fn parse_net(bytes: &[u8], k: u32) -> Result<Net, u8> {
    parse_with_section(bytes, k).map(|(net, _)| net)
}

/// The same with the section, if the record has one.
pub fn parse_with_section(bytes: &[u8], k: u32) -> Result<(Net, Option<Section>), u8> {
    let mut walk = Walk::new(bytes, 4);
    let within = |most: u8| move |byte: u8| (1..=most).contains(&byte);
    let first = walk.take_if(5, |byte| within(MOST_INPUTS)(byte & !SECTION_BIT))?;
    let inputs = usize::from(first & !SECTION_BIT);
    let gates = usize::from(walk.take_if(5, within(MOST_GATES))?);
    let outputs = walk.take_if(5, within(MOST_OUTPUTS))?;
    let nodes = inputs + gates;
    let mut net = Net {
        inputs,
        gates: Vec::with_capacity(gates),
        outputs: Vec::new(),
    };
    for _ in 0..gates {
        net.gates.push(parse_gate(&mut walk, nodes, k)?);
    }
    for _ in 0..outputs {
        net.outputs.push(parse_output(&mut walk, nodes)?);
    }
    let section = if first & SECTION_BIT == 0 {
        None
    } else {
        let past = (0..nodes).map(|_| walk.take_if(6, |byte| byte <= MOST_PAST));
        Some(past.collect::<Result<Section, u8>>()?)
    };
    if walk.at_end() {
        Ok((net, section))
    } else {
        Err(8)
    }
}

fn parse_gate(walk: &mut Walk, nodes: usize, k: u32) -> Result<Gate, u8> {
    let pin_map = walk.take_if(6, |map| map != 0 && map < 64)?;
    if pin_map.count_ones() > k {
        return Err(7);
    }
    let register_map = walk.take_if(6, |map| map & !pin_map == 0)?;
    let places: Vec<u32> = (0..6).filter(|j| pin_map >> j & 1 == 1).collect();
    let mut pins = Vec::with_capacity(places.len());
    for _ in &places {
        pins.push(Pin {
            source: parse_source(walk, nodes)?,
            count: 0,
        });
    }
    for (pin, j) in pins.iter_mut().zip(&places) {
        if register_map >> j & 1 == 1 {
            pin.count = parse_count(walk)?;
        }
    }
    let table = walk.take_table(pins.len(), 6)?;
    Ok(Gate { pins, table })
}

fn parse_output(walk: &mut Walk, nodes: usize) -> Result<Output, u8> {
    let map = walk.take_if(6, |map| map <= 1)?;
    let source = parse_source(walk, nodes)?;
    let count = if map == 1 { parse_count(walk)? } else { 0 };
    Ok(Output { source, count })
}

fn parse_source(walk: &mut Walk, nodes: usize) -> Result<usize, u8> {
    Ok(usize::from(
        walk.take_if(6, |source| usize::from(source) < nodes)?,
    ))
}

fn parse_count(walk: &mut Walk) -> Result<u32, u8> {
    Ok(u32::from(
        walk.take_if(6, |count| (1..=MOST_COUNT).contains(&count))?,
    ))
}

/// The checks 9, 10 and 11, each over the whole net.
pub fn check_net(net: &Net) -> Result<(), u8> {
    if net.order().is_none() {
        return Err(9);
    }
    if net.reached().contains(&false) {
        return Err(10);
    }
    let leads = net.leading();
    if net.gate_nodes().any(|v| !leads[v]) {
        return Err(11);
    }
    Ok(())
}

/// Read a net record and check the net: 4 to 11.
pub fn read_net(bytes: &[u8], k: u32) -> Result<Net, u8> {
    read_with_section(bytes, k).map(|(net, _)| net)
}

/// The same with the section, if the record has one.
pub fn read_with_section(bytes: &[u8], k: u32) -> Result<(Net, Option<Section>), u8> {
    let (net, section) = parse_with_section(bytes, k)?;
    check_net(&net)?;
    Ok((net, section))
}
