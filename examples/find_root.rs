//! Which gates of net A have a LUT in a stored cover.
//!
//! make library
//! rustc examples/find_root.rs -L target/staticlib -o find_root

#[link(name = "kamfelu", kind = "static")]
extern "C" {
    fn kamfelu_find_root(record: *const u8, record_len: usize, g: u16) -> i64;
}

fn main() {
    let record: [u8; 16] = [2, 2, 2, 2, 0, 0, 1, 8, 4, 2, 2, 2, 4, 1, 0, 9]; // net A's cover, k 2
    for g in 2..=4 {
        // SAFETY: the pointer goes with the record's length, and the record is only read.
        match unsafe { kamfelu_find_root(record.as_ptr(), record.len(), g) } {
            0 => println!("gate {g}: no LUT"),
            offset if offset > 0 => println!("gate {g}: LUT at byte {offset}"),
            refusal => println!("gate {g}: refused {}", -refusal),
        }
    }
}
