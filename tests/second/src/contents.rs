//! What the registers of a forward cover hold at first (document 02, E6), read off a run of the net from its
//! section; and at a change-over (E7), from the section that the net has made by then.

use crate::bench::Bench;
use crate::cover::Cover;
use crate::net::Net;

/// The least length of a contents area that is lent: 32 LUTs of 6 leaves and 16 outputs, 99 registers each.
pub const CONTENTS_BYTES: usize = 20_592;

/// The steps before step 0 that a section tells of.
const PAST: usize = 3;

/// A byte 0 or 1 for each register, newest first, connection by connection: leaves, then outputs.
pub fn first_contents(net: &Net, section: &[u8], cover: &Cover) -> Vec<u8> {
    first_contents_with(net, section, cover, |_| 0)
}

/// The same at the step behind these input pairs, on which the net first runs: the first contents for a net that
/// starts there, with its last three values for its section.
pub fn contents_after(net: &Net, section: &[u8], cover: &Cover, pairs: &[u8]) -> Vec<u8> {
    let section = Bench::after(net, section, pairs).section();
    first_contents(net, &section, cover)
}

/// First contents from a run with any inputs from step 0 on: the contents do not depend on them.
pub fn first_contents_with(
    net: &Net,
    section: &[u8],
    cover: &Cover,
    mut inputs: impl FnMut(i64) -> u16,
) -> Vec<u8> {
    let ahead = cover.luts.iter().map(|lut| -lut.lag).max().unwrap_or(0);
    // The values of all nodes at the steps from -3 on.
    let past = |back: usize| {
        section
            .iter()
            .map(move |byte| byte >> back & 1 == 1)
            .collect()
    };
    let mut values: Vec<Vec<bool>> = (0..PAST).rev().map(past).collect();
    let mut bench = Bench::new(net, section);
    for step in 0..ahead {
        bench.step(inputs(step));
        values.push(bench.now());
    }
    let value = |node: usize, step: i64| {
        let at = usize::try_from(step + PAST as i64).expect("a step before the section");
        u8::from(values[at][node])
    };
    let mut bytes = Vec::new();
    for (source, registers) in cover.connections(net).expect("a gate without a LUT") {
        let lag = cover.lag(net, source).expect("a LUT");
        bytes.extend((1..=registers).map(|i| value(source, -i - lag)));
    }
    bytes
}
