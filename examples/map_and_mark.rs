//! Maps net A of document 01 at k 2 for the least period, then marks the cover at k 3.
//!
//! make library
//! rustc examples/map_and_mark.rs -L target/staticlib -o map_and_mark

#[link(name = "kamfelu", kind = "static")]
extern "C" {
    #[rustfmt::skip]
    fn kamfelu_map(net: *const u8, net_len: usize, k: u32, target: u32, cover: *mut u8, cover_len: usize,
                   scratch: *mut u8, scratch_len: usize) -> i64;
    #[rustfmt::skip]
    fn kamfelu_mark(net: *const u8, net_len: usize, k: u32, record: *const u8, record_len: usize,
                    scratch: *mut u8, scratch_len: usize) -> i64;
}

const NET: [u8; 20] = [2, 3, 1, 3, 0, 0, 1, 8, 3, 2, 2, 4, 1, 6, 1, 0, 3, 1, 0, 4];

fn main() {
    let mut cover = [0u8; 962];
    let mut scratch = vec![0u8; 65_536];
    let (room, work) = (cover.as_mut_ptr(), scratch.as_mut_ptr());
    // SAFETY: each pointer goes with its area's length, and the areas are apart.
    let length = unsafe { kamfelu_map(NET.as_ptr(), 20, 2, 0, room, 962, work, 65_536) };
    if length < 0 {
        return println!("map: refused {}", -length);
    }
    println!("map: {length} bytes, period {}", cover[0]);
    let record = &cover[..length as usize];
    // SAFETY: as above; the record is only read.
    let excess =
        unsafe { kamfelu_mark(NET.as_ptr(), 20, 3, record.as_ptr(), record.len(), work, 65_536) };
    if excess < 0 {
        return println!("mark: refused {}", -excess);
    }
    println!("mark: excess {excess}");
}
