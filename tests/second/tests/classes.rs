//! Classes of three-input tables, by all 96 transformations at once.

use second::class_table;

const ORDERS: [[u8; 3]; 6] = [
    [0, 1, 2],
    [0, 2, 1],
    [1, 0, 2],
    [1, 2, 0],
    [2, 0, 1],
    [2, 1, 0],
];

/// The table with its leaves fed in this order, those of the mask inverted, and the output too.
fn turned(table: u8, order: [u8; 3], mask: u8, output: bool) -> u8 {
    let mut new = 0;
    for i in 0..8u8 {
        let fed: u8 = (0..3).map(|leaf| (i >> order[leaf] & 1) << leaf).sum();
        let value = table >> (fed ^ mask) & 1 == 1;
        new |= u8::from(value != output) << i;
    }
    new
}

fn all_turned(table: u8) -> Vec<u8> {
    let mut all = Vec::new();
    for order in ORDERS {
        for mask in 0..8 {
            all.extend([false, true].map(|output| turned(table, order, mask, output)));
        }
    }
    all
}

/// Every entry is reachable and none smaller.
#[test]
fn smallest_of_96() {
    for (table, entry) in (0..=255).zip(class_table()) {
        assert_eq!(all_turned(table).into_iter().min(), Some(entry));
    }
}

/// Two tables share an entry exactly when one can be turned into the other.
#[test]
fn shared_entries() {
    let entries = class_table();
    for table in 0..=255 {
        let reached = all_turned(table);
        for other in 0..=255 {
            let shared = entries[usize::from(table)] == entries[usize::from(other)];
            assert_eq!(shared, reached.contains(&other));
        }
    }
}

#[test]
fn fourteen_entries() {
    let mut entries = class_table().to_vec();
    entries.sort();
    entries.dedup();
    assert_eq!(
        entries,
        [0, 1, 3, 6, 7, 15, 22, 23, 24, 25, 27, 30, 60, 105]
    );
}
