//! What the programs print for the bytes they are given.

use crate::bench::{self};
use crate::classes::class_table;
use crate::jobs::{self, Answer, COVER_BYTES, SCRATCH_BYTES};
use crate::listing::{self, refused, GAVE_UP};
use crate::net::parse_net;

/// The byte at a place, 0 if it is missing.
fn byte(given: &[u8], at: usize) -> u32 {
    given.get(at).copied().map_or(0, u32::from)
}

/// The bytes from a place on.
fn rest(given: &[u8], from: usize) -> &[u8] {
    given.get(from..).unwrap_or(&[])
}

/// The net whose length stands in the bytes 1 and 2, as far as it is there, and the
/// bytes behind it.
fn net_and_rest(given: &[u8]) -> (&[u8], &[u8]) {
    let length = (byte(given, 1) + 256 * byte(given, 2)) as usize;
    let behind = rest(given, 3);
    behind.split_at(length.min(behind.len()))
}

/// k, target, net: the listing.
pub fn listing(given: &[u8]) -> Vec<u8> {
    let (k, target) = (byte(given, 0), byte(given, 1));
    listing::listing(k, target, rest(given, 2)).into_bytes()
}

/// k, target, net: the cover record, or `refused N`.
pub fn map(given: &[u8]) -> Vec<u8> {
    let mut cover = vec![0; COVER_BYTES];
    let mut scratch = vec![0; SCRATCH_BYTES];
    let (k, target) = (byte(given, 0), byte(given, 1));
    match jobs::map(rest(given, 2), k, target, &mut cover, &mut scratch) {
        Answer::Done(length) => cover[..length as usize].to_vec(),
        Answer::Refused(number) => refused(number).into_bytes(),
        Answer::GaveUp => GAVE_UP.as_bytes().to_vec(),
    }
}

/// k, the net's length in two bytes, net, record: `excess N` or `refused N`.
pub fn mark(given: &[u8]) -> Vec<u8> {
    let (net, record) = net_and_rest(given);
    let mut scratch = vec![0; SCRATCH_BYTES];
    match jobs::mark(net, byte(given, 0), record, &mut scratch) {
        Answer::Done(excess) => format!("excess {excess}\n").into_bytes(),
        Answer::Refused(number) => refused(number).into_bytes(),
        Answer::GaveUp => GAVE_UP.as_bytes().to_vec(),
    }
}

/// k, the net's length in two bytes, net, two bytes for each step: a line of 0s and 1s for each step, or
/// `refused N`.
pub fn bench(given: &[u8]) -> Vec<u8> {
    let (net, pairs) = net_and_rest(given);
    let text = bench::bench(byte(given, 0), net, pairs);
    text.unwrap_or_else(refused).into_bytes()
}

/// Cases one behind the other, each k, the net's length in two bytes and the net: for
/// each a line with `read I G O` or `refused N`. k is not tested.
pub fn reading(given: &[u8]) -> Vec<u8> {
    let mut text = String::new();
    let mut left = given;
    while !left.is_empty() {
        let (net, behind) = net_and_rest(left);
        text += &match parse_net(net, byte(left, 0)) {
            Ok(net) => {
                let [gates, outputs] = [net.gates.len(), net.outputs.len()];
                format!("read {} {gates} {outputs}\n", net.inputs)
            }
            Err(number) => refused(number),
        };
        left = behind;
    }
    text.into_bytes()
}

/// The table of classes, an entry a line; nothing is read.
pub fn classes(_given: &[u8]) -> Vec<u8> {
    let lines = class_table().map(|entry| format!("{entry}\n"));
    lines.concat().into_bytes()
}
