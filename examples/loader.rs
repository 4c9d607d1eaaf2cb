//! Maps net A of document 01 at k 2, with the image of its tables for the chip's loader: eight bytes
//! for each LUT.
//!
//! make library
//! rustc examples/loader.rs -L target/staticlib -o loader

#[link(name = "kamfelu", kind = "static")]
extern "C" {
    #[rustfmt::skip]
    fn kamfelu_map_loader(net: *const u8, net_len: usize, k: u32, target: u32, cover: *mut u8, cover_len: usize,
                          scratch: *mut u8, scratch_len: usize, loader: *mut u8, loader_len: usize) -> i64;
}

const NET: [u8; 20] = [2, 3, 1, 3, 0, 0, 1, 8, 3, 2, 2, 4, 1, 6, 1, 0, 3, 1, 0, 4];

fn main() {
    let mut cover = [0u8; 962];
    let mut scratch = vec![0u8; 65_536];
    let mut loader = [0u8; 256];
    let (room, work, image) = (cover.as_mut_ptr(), scratch.as_mut_ptr(), loader.as_mut_ptr());
    // SAFETY: each pointer goes with its area's length, and the areas are apart.
    let length =
        unsafe { kamfelu_map_loader(NET.as_ptr(), 20, 2, 0, room, 962, work, 65_536, image, 256) };
    if length < 0 {
        return println!("map: refused {}", -length);
    }
    println!("map: {length} bytes, {} LUTs", cover[1]);
    for lut in loader.chunks(8).take(cover[1].into()) {
        let bytes: Vec<String> = lut.iter().map(|byte| format!("{byte:02x}")).collect();
        println!("{}", bytes.join(" "));
    }
}
