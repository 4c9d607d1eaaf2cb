//! Maps net A of document 01 at k 2 for the least period, then marks the cover at k 3.
//!
//! make library
//! cd rust && cargo run --release --offline --example map_and_mark

use kamfelu::{map, mark, COVER_AREA, SCRATCH};

fn main() {
    let net = [2, 3, 1, 3, 0, 0, 1, 8, 3, 2, 2, 4, 1, 6, 1, 0, 3, 1, 0, 4]; // net A
    let (mut cover, mut scratch) = ([0; COVER_AREA], vec![0; SCRATCH]);
    match map(&net, 2, 0, &mut cover, &mut scratch) {
        Ok(length) => {
            println!("map: {length} bytes, period {}", cover[0]);
            println!("mark: {:?}", mark(&net, 3, &cover[..length], &mut scratch));
        }
        Err(refusal) => println!("map: refused {refusal}"),
    }
}
