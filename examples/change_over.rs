//! A board takes over from a running unit: net C of document 01, with a second output and a section,
//! mapped at k 2 for period 1 to a forward cover, and what the registers of its board hold if it takes
//! over at step 0, 1, 2 or 3.
//!
//! make library
//! rustc examples/change_over.rs -L target/staticlib -o change_over

#[link(name = "kamfelu", kind = "static")]
extern "C" {
    #[rustfmt::skip]
    fn kamfelu_change_over(net: *const u8, net_len: usize, k: u32, target: u32, pairs: *const u8, pairs_len: usize,
                           cover: *mut u8, cover_len: usize, scratch: *mut u8, scratch_len: usize,
                           loader: *mut u8, loader_len: usize, contents: *mut u8, contents_len: usize) -> i64;
}

/// Gate 2 = and(0:1, 1:1); outputs 2:0 and 0:2; the section: 01 03 07.
const NET: [u8; 18] = [0x82, 1, 2, 3, 3, 0, 1, 1, 1, 8, 0, 2, 1, 0, 2, 1, 3, 7];
/// The inputs at steps 0, 1 and 2: both 1, then input 1 alone, then input 0 alone.
const PAIRS: [u8; 6] = [3, 0, 2, 0, 1, 0];

fn main() {
    let mut cover = [0u8; 962];
    let mut scratch = vec![0u8; 65_536];
    let mut contents = vec![0u8; 20_592];
    for steps in 0..=3 {
        let (room, work, held) = (cover.as_mut_ptr(), scratch.as_mut_ptr(), contents.as_mut_ptr());
        let (net, pairs, none) = (NET.as_ptr(), PAIRS.as_ptr(), std::ptr::null_mut());
        let bytes = 2 * steps;
        // SAFETY: each pointer goes with its area's length, and the areas are apart.
        let length = unsafe {
            kamfelu_change_over(net, 18, 2, 1, pairs, bytes, room, 962, work, 65_536, none, 0, held, 20_592)
        };
        if length < 0 {
            return println!("change-over: refused {}", -length);
        }
        // One register at output 0 and two at output 1; examples/forward.rs works that out from the record.
        let (period, [first, second, third]) = (cover[0], [contents[0], contents[1], contents[2]]);
        println!("step {steps}: {length} bytes, period {period}, output 0: {first}, output 1: {second} {third}");
    }
}
