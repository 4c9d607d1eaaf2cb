//! Prints the class of the majority of three leaves, table 232: the smallest table that it can be turned into.
//!
//! make library
//! rustc examples/class.rs -L target/staticlib -o class

#[link(name = "kamfelu", kind = "static")]
extern "C" {
    fn kamfelu_class(table: u8) -> u8;
}

fn main() {
    // SAFETY: a number in and a number out.
    println!("class of 232: {}", unsafe { kamfelu_class(232) });
}
