//! Classes of three-input tables: what single steps connect.

/// The table whose bit i is the old one's bit `place(i)`.
fn moved(table: u8, place: impl Fn(u8) -> u8) -> u8 {
    (0..8).fold(0, |new, i| new | (table >> place(i) & 1) << i)
}

/// The number with bits a and b exchanged.
fn exchanged(i: u8, a: u8, b: u8) -> u8 {
    let unlike = (i >> a ^ i >> b) & 1;
    i ^ (unlike << a | unlike << b)
}

/// One step: two neighbouring leaves exchanged, the first leaf inverted, the output inverted.
fn steps(table: u8) -> [u8; 4] {
    [
        moved(table, |i| exchanged(i, 0, 1)),
        moved(table, |i| exchanged(i, 1, 2)),
        moved(table, |i| i ^ 1),
        !table,
    ]
}

/// Entry f is the smallest table that steps connect with f: the first of its part.
pub fn class_table() -> [u8; 256] {
    let mut entries = [None; 256];
    for first in 0..=255 {
        let mut open = vec![first];
        while let Some(table) = open.pop() {
            if entries[usize::from(table)].is_none() {
                entries[usize::from(table)] = Some(first);
                open.extend(steps(table));
            }
        }
    }
    entries.map(|entry| entry.expect("each table is in a part"))
}
