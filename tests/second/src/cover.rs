//! Covers with one LUT per root, and their record.

use crate::bytes::{put_table, Walk};
use crate::net::{Net, NodeCopy};

/// The map bit of a lag that is not 0.
const LAG_BIT: u8 = 1 << 6;

/// The largest period and the largest number of LUTs of a record.
pub const MOST_PERIOD: u8 = 32;
pub const MOST_LUTS: u8 = 32;

#[derive(Clone, Debug, PartialEq, Eq)]
pub struct Lut {
    pub root: usize,
    pub leaves: Vec<NodeCopy>,
    pub lag: i64,
    pub table: u64,
}

#[derive(Clone, Debug, PartialEq, Eq)]
pub struct Cover {
    pub period: u32,
    pub luts: Vec<Lut>,
}

impl Cover {
    /// The LUT with this root.
    pub fn lut(&self, root: usize) -> Option<&Lut> {
        self.luts.iter().find(|lut| lut.root == root)
    }

    /// The lag of a node: 0 for an input, for a gate that of its LUT.
    pub fn lag(&self, net: &Net, node: usize) -> Option<i64> {
        if net.is_gate(node) {
            self.lut(node).map(|lut| lut.lag)
        } else {
            Some(0)
        }
    }

    /// Every LUT connection, LUT by LUT and leaf by leaf, and then every output: the node
    /// that feeds it and its registers. None if a gate that is read has no LUT.
    pub fn connections(&self, net: &Net) -> Option<Vec<(usize, i64)>> {
        let mut all = Vec::new();
        for lut in &self.luts {
            for leaf in &lut.leaves {
                let own = i64::from(leaf.d) + lut.lag;
                all.push((leaf.node, own - self.lag(net, leaf.node)?));
            }
        }
        for output in &net.outputs {
            let source = output.source;
            all.push((source, i64::from(output.count) - self.lag(net, source)?));
        }
        Some(all)
    }
}

/// The bytes of a cover.
pub fn write_record(cover: &Cover) -> Vec<u8> {
    let mut bytes = vec![cover.period as u8, cover.luts.len() as u8];
    for lut in &cover.luts {
        let n = lut.leaves.len();
        let mut map = if lut.lag == 0 { 0 } else { LAG_BIT };
        for (j, leaf) in lut.leaves.iter().enumerate() {
            map |= u8::from(leaf.d != 0) << j;
        }
        bytes.extend_from_slice(&[lut.root as u8, n as u8, map]);
        bytes.extend(lut.leaves.iter().map(|leaf| leaf.node as u8));
        for leaf in lut.leaves.iter().filter(|leaf| leaf.d != 0) {
            bytes.extend_from_slice(&(leaf.d as u16).to_le_bytes());
        }
        if lut.lag != 0 {
            bytes.push(lut.lag as i8 as u8);
        }
        put_table(&mut bytes, lut.table, n);
    }
    bytes
}

/// Read a cover's record for a net and k; 13 if it breaks the layout.
pub fn read_record(net: &Net, k: u32, bytes: &[u8]) -> Result<Cover, u8> {
    let mut walk = Walk::new(bytes, 13);
    let period = walk.take_if(13, |byte| (1..=MOST_PERIOD).contains(&byte))?;
    let count = walk.take_if(13, |byte| (1..=MOST_LUTS).contains(&byte))?;
    let mut luts: Vec<Lut> = Vec::new();
    for _ in 0..count {
        let lut = read_lut(&mut walk, net, k)?;
        if luts.last().is_some_and(|last| last.root >= lut.root) {
            return Err(13);
        }
        luts.push(lut);
    }
    if walk.at_end() {
        Ok(Cover {
            period: u32::from(period),
            luts,
        })
    } else {
        Err(13)
    }
}

fn read_lut(walk: &mut Walk, net: &Net, k: u32) -> Result<Lut, u8> {
    let node = |byte: u8| usize::from(byte) < net.nodes();
    let root = walk.take_if(13, |byte| node(byte) && net.is_gate(usize::from(byte)))?;
    let n = walk.take_if(13, |byte| byte >= 1 && u32::from(byte) <= k)?;
    let map = walk.take_if(13, |map| map & !LAG_BIT < 1 << n)?;
    let mut leaves = Vec::with_capacity(usize::from(n));
    for _ in 0..n {
        leaves.push(NodeCopy {
            node: usize::from(walk.take_if(13, node)?),
            d: 0,
        });
    }
    for (j, leaf) in leaves.iter_mut().enumerate() {
        if map >> j & 1 == 1 {
            leaf.d = u32::from(u16::from_le_bytes([walk.take()?, walk.take()?]));
            if leaf.d == 0 {
                return Err(13);
            }
        }
    }
    if leaves.windows(2).any(|pair| pair[0] >= pair[1]) {
        return Err(13);
    }
    let lag = match map & LAG_BIT {
        0 => 0,
        _ => i64::from(walk.take_if(13, |byte| byte != 0)? as i8),
    };
    let table = walk.take_table(usize::from(n), 13)?;
    Ok(Lut {
        root: usize::from(root),
        leaves,
        lag,
        table,
    })
}
