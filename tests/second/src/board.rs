//! A board: the LUTs of a cover with their tables, and registers that shift at each step.

use crate::bench::Bench;
use crate::cover::{Cover, Lut};
use crate::net::Net;
use crate::random::Random;
use std::collections::VecDeque;

/// A connection: the node that feeds it, and its registers, newest first.
struct Wire {
    source: usize,
    registers: VecDeque<bool>,
}

impl Wire {
    /// What it brings to its reader: its oldest register, or its source where there is none.
    fn brings(&self, values: &[bool]) -> bool {
        let oldest = self.registers.back();
        oldest.copied().unwrap_or(values[self.source])
    }

    /// The end of a step: the source's value goes in, the oldest goes out.
    fn shift(&mut self, values: &[bool]) {
        if self.registers.pop_back().is_some() {
            self.registers.push_front(values[self.source]);
        }
    }
}

pub struct Board {
    inputs: usize,
    /// The LUTs, each with its leaves' wires, in an order in which a wire without registers comes from an
    /// input or from an earlier LUT.
    luts: Vec<(Lut, Vec<Wire>)>,
    outputs: Vec<Wire>,
    /// What each input and each LUT, by its root, has at this step.
    values: Vec<bool>,
}

impl Board {
    /// Before step 0. The cover has no negative connection and no loop without a register; `contents` has a
    /// byte 0 or 1 for each register, and no more.
    pub fn new(net: &Net, cover: &Cover, contents: &[u8]) -> Board {
        let mut left = contents.iter();
        let connections = cover.connections(net).expect("a gate without a LUT");
        let mut wires = connections.into_iter().map(|(source, registers)| {
            let mut register = || match left.next().expect("contents") {
                0 => false,
                1 => true,
                byte => panic!("a register holds {byte}"),
            };
            let registers = (0..registers).map(|_| register()).collect();
            Wire { source, registers }
        });
        let mut of_lut = |lut: &Lut| (lut.clone(), wires.by_ref().take(lut.leaves.len()).collect());
        let luts = cover.luts.iter().map(&mut of_lut).collect();
        let outputs = wires.collect();
        assert!(left.next().is_none(), "contents are left");
        Board {
            inputs: net.inputs,
            luts: in_order(net.inputs, luts),
            outputs,
            values: vec![false; net.nodes()],
        }
    }

    /// A step, with input i in bit i: the values of the outputs.
    pub fn step(&mut self, inputs: u16) -> Vec<bool> {
        let values = &mut self.values;
        for (input, value) in values[..self.inputs].iter_mut().enumerate() {
            *value = inputs >> input & 1 == 1;
        }
        for (lut, wires) in &self.luts {
            let mut index = 0;
            for (j, wire) in wires.iter().enumerate() {
                index |= u32::from(wire.brings(values)) << j;
            }
            values[lut.root] = lut.table >> index & 1 == 1;
        }
        let shown = self
            .outputs
            .iter()
            .map(|wire| wire.brings(values))
            .collect();
        let leaves = self.luts.iter_mut().flat_map(|(_, wires)| wires);
        for wire in leaves.chain(&mut self.outputs) {
            wire.shift(values);
        }
        shown
    }

    /// What its registers hold now, in the order of contents.
    pub fn contents(&self) -> Vec<u8> {
        let mut luts: Vec<&(Lut, Vec<Wire>)> = self.luts.iter().collect();
        luts.sort_unstable_by_key(|(lut, _)| lut.root);
        let leaves = luts.into_iter().flat_map(|(_, wires)| wires);
        let registers = leaves.chain(&self.outputs).flat_map(|wire| &wire.registers);
        registers.map(|&bit| u8::from(bit)).collect()
    }
}

/// Whether a board that starts with these contents and the net that goes on from where it stands show the same
/// outputs, step by step, on the same random inputs.
pub fn board_runs_as_net(
    mut bench: Bench,
    cover: &Cover,
    contents: &[u8],
    steps: usize,
    random: &mut Random,
) -> bool {
    let mut board = Board::new(bench.net, cover, contents);
    (0..steps).all(|_| {
        let inputs = random.word() as u16;
        board.step(inputs) == bench.step(inputs)
    })
}

fn in_order(inputs: usize, mut left: Vec<(Lut, Vec<Wire>)>) -> Vec<(Lut, Vec<Wire>)> {
    let mut placed: Vec<(Lut, Vec<Wire>)> = Vec::with_capacity(left.len());
    while !left.is_empty() {
        let known = |node: usize| node < inputs || placed.iter().any(|(lut, _)| lut.root == node);
        let ready = |wire: &Wire| !wire.registers.is_empty() || known(wire.source);
        let next = left.iter().position(|(_, wires)| wires.iter().all(ready));
        placed.push(left.remove(next.expect("a loop has no register")));
    }
    placed
}
