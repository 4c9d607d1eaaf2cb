//! Whether a gate has a LUT in a stored cover record (document 02, E1), from the whole record: its LUTs are
//! cut apart first, as far as the layout holds, and only then is the gate looked for among their roots.

use crate::bytes::{table_bytes, table_mask};
use crate::cover::{MOST_LUTS, MOST_PERIOD};

/// The most leaves of a LUT.
const MOST_LEAVES: usize = 6;

/// The length of the LUT in front of these bytes, if it keeps the layout.
fn lut_length(bytes: &[u8]) -> Option<usize> {
    let (&n, &map) = (bytes.get(1)?, bytes.get(2)?);
    let n = usize::from(n);
    let flags = usize::from(map % 64);
    if n == 0 || n > MOST_LEAVES || map > 127 || flags >= 1 << n {
        return None;
    }
    let (depths, lag) = (3 + n, 3 + n + 2 * flags.count_ones() as usize);
    let table = lag + usize::from(map / 64);
    let end = table + table_bytes(n);
    let lut = bytes.get(..end)?;
    let mut stored = lut[depths..lag]
        .chunks(2)
        .map(|d| u16::from_le_bytes([d[0], d[1]]));
    let leaf = |j: usize| match flags >> j & 1 {
        0 => Some((lut[3 + j], 0)),
        _ => stored.next().filter(|&d| d != 0).map(|d| (lut[3 + j], d)),
    };
    let leaves: Vec<(u8, u16)> = (0..n).map(leaf).collect::<Option<_>>()?;
    let rising = leaves.windows(2).all(|pair| pair[0] < pair[1]);
    let spare = lut[table..]
        .iter()
        .all(|&byte| u64::from(byte) & !table_mask(n) == 0);
    (rising && spare && !lut[lag..table].contains(&0)).then_some(end)
}

/// The place of the root of gate g's LUT, none, or 19.
pub fn find_root(record: &[u8], g: u16) -> Result<Option<usize>, u8> {
    let [period, count, ..] = *record else {
        return Err(19);
    };
    if !(1..=MOST_PERIOD).contains(&period) || !(1..=MOST_LUTS).contains(&count) {
        return Err(19);
    }
    let mut roots: Vec<(u16, usize)> = Vec::new();
    let (mut at, mut whole) = (2, true);
    for _ in 0..count {
        let rises = |root: &u16| roots.last().is_none_or(|(last, _)| last < root);
        let Some(root) = record.get(at).map(|&byte| u16::from(byte)).filter(rises) else {
            whole = false;
            break;
        };
        roots.push((root, at));
        let Some(length) = lut_length(&record[at..]) else {
            whole = false;
            break;
        };
        at += length;
    }
    match roots.iter().find(|(root, _)| *root >= g) {
        Some(&(root, at)) => Ok((root == g).then_some(at)),
        None if whole => Ok(None),
        None => Err(19),
    }
}
