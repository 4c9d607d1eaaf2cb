//! Writes crates/reading/stdin, the batch of cases for the gate, crates/bench/stdin, a net and its steps, and
//! beside each stdout, the answers of the second mapper.
//!
//! `batch [seed]`: the seed of the cases.

use library::batch::{batch, STORED_SEED};
use library::bench::stored;
use second::programs::{bench, reading};
use std::fs::write;

const CRATES: &str = concat!(env!("CARGO_MANIFEST_DIR"), "/../../crates/");

fn store(program: &str, given: &[u8], answers: Vec<u8>) -> std::io::Result<()> {
    let folder = CRATES.to_string() + program;
    write(folder.clone() + "/stdin", given)?;
    write(folder + "/stdout", answers)
}

fn main() -> std::io::Result<()> {
    let seed = match std::env::args().nth(1) {
        Some(text) => text.parse().expect("a number"),
        None => STORED_SEED,
    };
    let given = batch(seed);
    store("reading", &given, reading(&given))?;
    let given = stored();
    store("bench", &given, bench(&given))
}
