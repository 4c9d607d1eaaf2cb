//! The classes of three-input tables: the library, the program and its stored output.

use library::programs::printed;
use second::programs::classes;

/// Each entry is the second mapper's.
#[test]
fn library_entries() {
    for (table, entry) in (0..=255).zip(second::class_table()) {
        assert_eq!(kamfelu::class(table), entry, "table {table}");
    }
}

/// The program's stored output is the library's table, decimal, one a line.
#[test]
fn stored_output() {
    let stored = concat!(env!("CARGO_MANIFEST_DIR"), "/../../crates/classes/stdout");
    let stored = std::fs::read_to_string(stored).expect("a stored file");
    let lines: Vec<String> = (0..=255)
        .map(|table| format!("{}\n", kamfelu::class(table)))
        .collect();
    assert_eq!(lines.len(), 256);
    assert_eq!(stored, lines.concat());
    assert_eq!(stored.as_bytes(), classes(&[]));
}

/// The program prints it, whatever it is given.
#[test]
fn program_output() {
    for given in [&[][..], b"1\n", &[255; 1000]] {
        assert_eq!(printed("classes", given).as_bytes(), classes(given));
    }
}
