//! The image for the chip's loader (document 02, E4): 64 bits for each LUT of a cover, its short table
//! repeated until they are full.

use crate::cover::{Cover, Lut};

/// The least length of a loader area that is lent: the image of 32 LUTs.
pub const LOADER_BYTES: usize = 256;

/// Eight bytes for each LUT in root order, the first byte lowest.
pub fn image(cover: &Cover) -> Vec<u8> {
    cover.luts.iter().flat_map(lut_image).collect()
}

/// Bit x of the 64 is bit x mod 2^n of the table.
fn lut_image(lut: &Lut) -> [u8; 8] {
    let mut bytes = [0; 8];
    for x in 0..64 {
        let bit = lut.table >> (x % (1 << lut.leaves.len())) & 1;
        bytes[x / 8] |= (bit as u8) << (x % 8);
    }
    bytes
}
