//! The record of a net, and a section behind it.

use crate::bytes::put_table;
use crate::net::{Gate, Net, MOST_PAST, SECTION_BIT};
use crate::random::Random;

/// The pin maps without holes.
pub fn encode(net: &Net) -> Vec<u8> {
    encode_with(net, |pins| (1 << pins) - 1)
}

/// Pin maps with holes at random places.
pub fn encode_with_holes(net: &Net, random: &mut Random) -> Vec<u8> {
    encode_with(net, |pins| {
        let mut places: Vec<u8> = (0..6).collect();
        random.shuffle(&mut places);
        places[..pins].iter().map(|j| 1 << j).sum()
    })
}

/// A net's record with a section behind it.
pub fn with_section(net: &[u8], section: &[u8]) -> Vec<u8> {
    let mut bytes = [net, section].concat();
    bytes[0] |= SECTION_BIT;
    bytes
}

/// Any values before step 0 for so many nodes.
pub fn random_section(nodes: usize, random: &mut Random) -> Vec<u8> {
    let past = |_| random.byte() & MOST_PAST;
    (0..nodes).map(past).collect()
}

fn encode_with(net: &Net, mut map: impl FnMut(usize) -> u8) -> Vec<u8> {
    let mut bytes = vec![
        net.inputs as u8,
        net.gates.len() as u8,
        net.outputs.len() as u8,
    ];
    for gate in &net.gates {
        put_gate(&mut bytes, gate, map(gate.pins.len()));
    }
    for output in &net.outputs {
        bytes.extend_from_slice(&[u8::from(output.count > 0), output.source as u8]);
        if output.count > 0 {
            bytes.push(output.count as u8);
        }
    }
    bytes
}

fn put_gate(bytes: &mut Vec<u8>, gate: &Gate, pin_map: u8) {
    let places = (0..6).filter(|j| pin_map >> j & 1 == 1);
    let with_register = places.zip(&gate.pins).filter(|(_, pin)| pin.count > 0);
    let register_map: u8 = with_register.map(|(j, _)| 1 << j).sum();
    bytes.extend_from_slice(&[pin_map, register_map]);
    bytes.extend(gate.pins.iter().map(|pin| pin.source as u8));
    bytes.extend(
        gate.pins
            .iter()
            .filter(|pin| pin.count > 0)
            .map(|pin| pin.count as u8),
    );
    put_table(bytes, gate.table, gate.pins.len());
}
