//! The contents of a board's registers, connection by connection.

/// A connection of a board, and what its registers hold at first, or at a change-over.
#[derive(Clone, Copy, Debug, PartialEq, Eq)]
pub struct Connection<'a> {
    pub reader: Reader,
    /// The node that feeds it: an input, or the root of a LUT.
    pub source: u8,
    /// A byte 0 or 1 for each register, the newest first.
    pub registers: &'a [u8],
}

/// What reads a connection.
#[derive(Clone, Copy, Debug, PartialEq, Eq)]
pub enum Reader {
    /// A leaf, counted from 0, of the LUT with this root.
    Leaf { root: u8, leaf: usize },
    /// An output of the net, counted from 0.
    Output(usize),
}

/// The connections of a cover in order, LUT by LUT and leaf by leaf, then the outputs, each with its
/// part of the contents.
///
/// - `net`: a net record.
/// - `record`: the cover record that [`map_forward`](crate::map_forward) or
///   [`change_over`](crate::change_over) wrote for it.
/// - `contents`: the contents written with it, or the whole contents area.
///
/// `None` if one of the records ends early, a leaf has no LUT, a connection would have fewer than 0
/// registers, or the contents end before the last one; never for what these two wrote.
///
/// ```
/// use kamfelu::{connections, map_forward, Reader, CONTENTS_AREA, COVER_AREA, SCRATCH};
///
/// // Net C with a second output, which reads input 0 through 2 registers, and a section.
/// let net = [0x82, 1, 2, 3, 3, 0, 1, 1, 1, 8, 0, 2, 1, 0, 2, 1, 3, 7];
/// let (mut cover, mut scratch) = ([0; COVER_AREA], vec![0; SCRATCH]);
/// let mut contents = vec![0; CONTENTS_AREA];
/// let answer = map_forward(&net, 2, 1, &mut cover, &mut scratch, &mut [], &mut contents);
/// let length = answer.unwrap();
/// let all = connections(&net, &cover[..length], &contents).unwrap();
/// assert_eq!(all[0].reader, Reader::Leaf { root: 2, leaf: 0 });
/// assert_eq!(all[3].reader, Reader::Output(1));
/// let registers: Vec<&[u8]> = all.iter().map(|connection| connection.registers).collect();
/// assert_eq!(registers, [&[][..], &[], &[1], &[1, 0]]); // two leaves, then two outputs
/// ```
pub fn connections<'a>(
    net: &[u8],
    record: &[u8],
    contents: &'a [u8],
) -> Option<Vec<Connection<'a>>> {
    let inputs = net.first()? & !SECTION_BIT;
    let luts = luts_of(record)?;
    let lag_of = |node: u8| {
        let mut with_root = luts.iter().filter(|lut| lut.root == node);
        if node < inputs {
            Some(0)
        } else {
            with_root.next().map(|lut| lut.lag)
        }
    };
    let mut left = contents;
    let mut connect = |reader: Reader, source: u8, delay: i32| {
        let count = usize::try_from(delay - lag_of(source)?).ok()?;
        let (registers, rest) = left.split_at_checked(count)?;
        left = rest;
        Some(Connection {
            reader,
            source,
            registers,
        })
    };
    let mut all = Vec::new();
    for Lut { root, leaves, lag } in &luts {
        for (leaf, &(source, d)) in leaves.iter().enumerate() {
            let reader = Reader::Leaf { root: *root, leaf };
            all.push(connect(reader, source, i32::from(d) + lag)?);
        }
    }
    for (output, (source, count)) in outputs_of(net)?.into_iter().enumerate() {
        all.push(connect(Reader::Output(output), source, count.into())?);
    }
    Some(all)
}

/// The bit of a net's first byte that says that a section follows.
const SECTION_BIT: u8 = 1 << 7;
/// The bit of a LUT's map that says that a lag is stored.
const LAG_BIT: u8 = 1 << 6;
const MOST_LEAVES: u8 = 6;

struct Lut {
    root: u8,
    /// Nodes and d's.
    leaves: Vec<(u8, u16)>,
    lag: i32,
}

/// A record's bytes from the front on.
type Bytes<'a> = std::iter::Copied<std::slice::Iter<'a, u8>>;

/// The bytes of a table of 2^n bits are passed.
fn pass_table(bytes: &mut Bytes, n: u32) -> Option<u8> {
    bytes.nth(((1usize << n) / 8).max(1) - 1)
}

fn luts_of(record: &[u8]) -> Option<Vec<Lut>> {
    let mut bytes = record.iter().copied();
    let (_period, count) = (bytes.next()?, bytes.next()?);
    (0..count).map(|_| lut_of(&mut bytes)).collect()
}

fn lut_of(bytes: &mut Bytes) -> Option<Lut> {
    let (root, n, map) = (bytes.next()?, bytes.next()?, bytes.next()?);
    if n > MOST_LEAVES {
        return None;
    }
    let nodes: Vec<u8> = bytes.by_ref().take(n.into()).collect();
    let mut leaves = Vec::new();
    for (j, node) in nodes.into_iter().enumerate() {
        let d = match map >> j & 1 {
            0 => 0,
            _ => u16::from_le_bytes([bytes.next()?, bytes.next()?]),
        };
        leaves.push((node, d));
    }
    let lag = match map & LAG_BIT {
        0 => 0,
        _ => i32::from(bytes.next()? as i8),
    };
    pass_table(bytes, n.into())?;
    Some(Lut { root, leaves, lag })
}

/// The node that each output reads, and through how many registers.
fn outputs_of(net: &[u8]) -> Option<Vec<(u8, u8)>> {
    let mut bytes = net.iter().copied();
    let (_inputs, gates, outputs) = (bytes.next()?, bytes.next()?, bytes.next()?);
    for _ in 0..gates {
        let (pins, registers) = (bytes.next()?.count_ones(), bytes.next()?.count_ones());
        bytes.nth((pins + registers).checked_sub(1)? as usize)?;
        pass_table(&mut bytes, pins)?;
    }
    let output = |_| {
        let (map, source) = (bytes.next()?, bytes.next()?);
        let count = if map == 0 { 0 } else { bytes.next()? };
        Some((source, count))
    };
    (0..outputs).map(output).collect()
}
