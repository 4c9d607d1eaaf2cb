//! Two captures of one unit, the second begun 3 steps after the first.
//!
//! make library
//! rustc examples/align.rs -L target/staticlib -o align

#[link(name = "kamfelu", kind = "static")]
extern "C" {
    #[rustfmt::skip]
    fn kamfelu_align(first: *const u16, first_len: usize, second: *const u16, second_len: usize) -> i64;
}

fn main() {
    let unit = |step: u16| step * step;
    let first: Vec<u16> = (0..100).map(unit).collect();
    let second: Vec<u16> = (3..103).map(unit).collect();
    // SAFETY: each pointer goes with its capture's length, and both are only read.
    match unsafe { kamfelu_align(first.as_ptr(), 100, second.as_ptr(), 100) } {
        256 => println!("align: none"),
        shift if shift >= 0 => println!("align: shift {shift}"),
        refusal => println!("align: refused {}", -refusal),
    }
}
