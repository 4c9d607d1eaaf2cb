//! The checks 14 to 18 of a candidate's cover.

use crate::cone::{cone_of, lut_table};
use crate::cover::Cover;
use crate::net::Net;

/// Each check is made over the whole cover before the next.
pub fn check_cover(net: &Net, cover: &Cover) -> Result<(), u8> {
    if cover
        .luts
        .iter()
        .any(|lut| cone_of(net, lut.root, &lut.leaves).is_none())
    {
        return Err(14);
    }
    if cover
        .luts
        .iter()
        .any(|lut| lut_table(net, lut.root, &lut.leaves) != lut.table)
    {
        return Err(15);
    }
    let connections = cover.connections(net).ok_or(16)?;
    if connections.iter().any(|&(_, registers)| registers < 0) {
        return Err(17);
    }
    if longest_chain(net, cover) > cover.period {
        return Err(18);
    }
    Ok(())
}

/// Whether a cover that passed 14 is forward (document 02, E6): lag and largest d of the cone's members together
/// are at most 0 for each LUT.
pub fn is_forward(net: &Net, cover: &Cover) -> bool {
    cover.luts.iter().all(|lut| {
        let cone = cone_of(net, lut.root, &lut.leaves).expect("a cone");
        cone.iter().all(|copy| lut.lag + i64::from(copy.d) <= 0)
    })
}

/// The number of LUTs in the longest chain without registers. The cover passed 14,
/// 16 and 17, so no such chain returns to its start.
pub fn longest_chain(net: &Net, cover: &Cover) -> u32 {
    let mut depth = vec![0u32; net.nodes()];
    loop {
        let mut changed = false;
        for lut in &cover.luts {
            let mut deepest = 0;
            for leaf in &lut.leaves {
                if i64::from(leaf.d) + lut.lag == cover.lag(net, leaf.node).expect("a LUT") {
                    deepest = deepest.max(depth[leaf.node]);
                }
            }
            if depth[lut.root] != deepest + 1 {
                depth[lut.root] = deepest + 1;
                changed = true;
            }
        }
        if !changed {
            return depth.into_iter().max().unwrap_or(0);
        }
    }
}
