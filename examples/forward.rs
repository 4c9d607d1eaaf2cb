//! Maps net C of document 01, with a second output and a section, at k 2 for period 1 to a forward
//! cover, and shows what each connection's registers hold at first. The crate kamfelu has a function
//! for that, `connections`.
//!
//! make library
//! rustc examples/forward.rs -L target/staticlib -o forward

#[link(name = "kamfelu", kind = "static")]
extern "C" {
    #[rustfmt::skip]
    fn kamfelu_map_forward(net: *const u8, net_len: usize, k: u32, target: u32, cover: *mut u8, cover_len: usize,
                           scratch: *mut u8, scratch_len: usize, loader: *mut u8, loader_len: usize,
                           contents: *mut u8, contents_len: usize) -> i64;
}

/// Gate 2 = and(0:1, 1:1); outputs 2:0 and 0:2; the section: 01 03 07.
const NET: [u8; 18] = [0x82, 1, 2, 3, 3, 0, 1, 1, 1, 8, 0, 2, 1, 0, 2, 1, 3, 7];
const OUTPUTS: [(u8, i32); 2] = [(2, 0), (0, 2)];

struct Lut {
    root: u8,
    leaves: Vec<(u8, i32)>,
    lag: i32,
}

/// Reads a LUT of a cover record; the bytes behind it.
fn read_lut(bytes: &[u8]) -> (Lut, &[u8]) {
    let (root, n, map) = (bytes[0], usize::from(bytes[1]), bytes[2]);
    let (nodes, mut left) = bytes[3..].split_at(n);
    let mut leaves = Vec::new();
    for (j, &node) in nodes.iter().enumerate() {
        let mut d = 0;
        if map >> j & 1 == 1 {
            d = i32::from(u16::from_le_bytes([left[0], left[1]]));
            left = &left[2..];
        }
        leaves.push((node, d));
    }
    let mut lag = 0;
    if map & 64 != 0 {
        lag = i32::from(left[0] as i8);
        left = &left[1..];
    }
    (Lut { root, leaves, lag }, &left[((1 << n) / 8).max(1)..])
}

/// Prints a connection's registers, the newest first; the bytes behind them.
fn show(contents: &[u8], registers: i32) -> &[u8] {
    let (own, behind) = contents.split_at(registers as usize);
    let bits: Vec<String> = own.iter().map(u8::to_string).collect();
    let colon = if own.is_empty() { "" } else { ": " };
    println!("registers {registers}{colon}{}", bits.join(" "));
    behind
}

fn main() {
    let mut cover = [0u8; 962];
    let mut scratch = vec![0u8; 65_536];
    let mut contents = vec![0u8; 20_592];
    let (room, work, first) = (cover.as_mut_ptr(), scratch.as_mut_ptr(), contents.as_mut_ptr());
    let (net, none) = (NET.as_ptr(), std::ptr::null_mut());
    // SAFETY: each pointer goes with its area's length, and the areas are apart.
    let length = unsafe {
        kamfelu_map_forward(net, 18, 2, 1, room, 962, work, 65_536, none, 0, first, 20_592)
    };
    if length < 0 {
        return println!("map: refused {}", -length);
    }
    println!("map: {length} bytes, period {}", cover[0]);
    let mut luts = Vec::new();
    let mut left = &cover[2..];
    for _ in 0..cover[1] {
        let (lut, behind) = read_lut(left);
        luts.push(lut);
        left = behind;
    }
    let lag = |node: u8| luts.iter().find(|lut| lut.root == node).map_or(0, |lut| lut.lag);
    let mut left = &contents[..];
    for lut in &luts {
        for &(node, d) in &lut.leaves {
            print!("leaf {node}:{d} of LUT {}, ", lut.root);
            left = show(left, d + lut.lag - lag(node));
        }
    }
    for (i, &(node, count)) in OUTPUTS.iter().enumerate() {
        print!("output {i}, ");
        left = show(left, count - lag(node));
    }
}
