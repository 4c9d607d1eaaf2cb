//! The batch of cases that the program `reading` is given at the gate: each k, the net's
//! length in two bytes, low first, and the net.

use crate::inputs::{some_k, some_net};
use crate::nets::{largest_record, line, net, net_a, net_b, net_c, with_sections, Read, AND};
use second::damage::damaged_net;
use second::encode::encode;
use second::Random;

/// The seed of the stored batch.
pub const STORED_SEED: u64 = 1;
/// The program reads no more.
const MOST_BYTES: usize = 65_536;
/// The number of random nets, and the most bytes of one.
const NETS: usize = 800;
const MOST_NET: usize = 500;

pub fn case(k: u8, net: &[u8]) -> Vec<u8> {
    [&[k], &(net.len() as u16).to_le_bytes()[..], net].concat()
}

/// The examples of document 01, and nets with a section.
fn examples() -> Vec<(u8, Vec<u8>)> {
    let wide: Vec<Read> = (0..6).map(|i| (i, 0)).collect();
    let wide = encode(&net(6, &[(&wide, 1 << 63)], &[(6, 0)]));
    let equal = encode(&net(1, &[(&[(0, 0), (0, 0)], AND)], &[(1, 0)]));
    let apart = encode(&net(1, &[(&[(0, 0), (0, 1)], AND)], &[(1, 0)]));
    let mut all = Vec::new();
    for net in [net_a(), net_b(1), net_b(0), net_c(), equal, apart, wide] {
        all.extend((1..=7).map(|k| (k, net.clone())));
    }
    all.extend([line(32, 0), line(33, 0), largest_record()].map(|net| (6, encode(&net))));
    // Counts 3 and 4, on a pin and on an output.
    all.extend([line(1, 3), line(1, 4)].map(|net| (2, encode(&net))));
    all.extend([net_b(3), net_b(4)].map(|net| (2, net)));
    all.extend(with_sections().into_iter().map(|net| (6, net)));
    all
}

/// The examples, then random nets, many of them damaged, then a case that is cut off.
pub fn batch(seed: u64) -> Vec<u8> {
    let mut random = Random::new(seed);
    let mut cases = examples();
    let all = cases.len() + NETS;
    while cases.len() < all {
        let (mut net, pins) = some_net(&mut random);
        if random.chance(40) {
            net = damaged_net(&mut random, &net);
        }
        if net.len() <= MOST_NET {
            cases.push((some_k(&mut random, pins) as u8, net));
        }
    }
    let mut bytes: Vec<u8> = cases.iter().flat_map(|(k, net)| case(*k, net)).collect();
    bytes.extend(&case(2, &net_a())[..15]);
    assert!(bytes.len() <= MOST_BYTES);
    bytes
}
