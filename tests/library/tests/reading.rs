//! The program `reading`: its stored batch is the generator's, and fresh ones agree too.

use library::batch::{batch, case, STORED_SEED};
use library::nets::net_a;
use library::programs::printed;
use library::tally::seed;
use second::programs::reading;

fn same(given: &[u8]) -> String {
    let text = printed("reading", given);
    assert_eq!(text.as_bytes(), reading(given));
    text
}

/// The stored files, and that every answer is among them.
#[test]
fn stored_batch() {
    let given = batch(STORED_SEED);
    let text = String::from_utf8(reading(&given)).expect("text");
    let stored = concat!(env!("CARGO_MANIFEST_DIR"), "/../../crates/reading/");
    let stored = |name: &str| std::fs::read(stored.to_string() + name).expect("a stored file");
    let hint = "cargo run --release -p library --bin batch writes the files";
    assert!(
        stored("stdin") == given && stored("stdout") == text.as_bytes(),
        "{hint}"
    );
    for answer in [
        "read",
        "refused 4",
        "refused 5",
        "refused 6",
        "refused 7",
        "refused 8",
    ] {
        let seen = text.lines().filter(|line| line.starts_with(answer)).count();
        assert!(seen >= 10, "{answer} is rare: {seen}");
    }
}

#[test]
fn fresh_batches() {
    for turn in 0..20 {
        same(&batch(seed().wrapping_mul(1_000_117).wrapping_add(turn)));
    }
}

#[test]
fn cut_off() {
    assert_eq!(same(&[]), "");
    assert_eq!(same(&[2]), "refused 4\n");
    let whole = [case(2, &net_a()), case(3, &net_a())].concat();
    assert_eq!(same(&whole), "read 2 3 1\nread 2 3 1\n");
    for end in 0..whole.len() {
        same(&whole[..end]);
    }
}
