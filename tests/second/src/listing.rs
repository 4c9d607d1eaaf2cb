//! The text of the listing.

use crate::cover::Cover;
use crate::cuts::Limits;
use crate::jobs::MOST_TARGET;
use crate::labels::Mode;
use crate::net::{read_net, Net};
use crate::solve::{solve, Stop};
use std::fmt::Write;

/// What is printed where the second mapper gives up.
pub const GAVE_UP: &str = "gave up\n";

/// The listing of a net for k and a target, or `refused N`.
pub fn listing(k: u32, target: u32, net: &[u8]) -> String {
    listing_within(Limits::default(), k, target, net)
}

/// The same with limits of one's own.
pub fn listing_within(limits: Limits, k: u32, target: u32, net: &[u8]) -> String {
    match lines(limits, k, target, net) {
        Ok(text) => text,
        Err(Stop::Refused(number)) => refused(number),
        Err(Stop::GaveUp) => GAVE_UP.to_string(),
    }
}

pub fn refused(number: u8) -> String {
    format!("refused {number}\n")
}

fn lines(limits: Limits, k: u32, target: u32, net: &[u8]) -> Result<String, Stop> {
    if !(2..=6).contains(&k) {
        return Err(Stop::Refused(1));
    }
    if target > MOST_TARGET {
        return Err(Stop::Refused(2));
    }
    let net = read_net(net, k).map_err(Stop::Refused)?;
    let (cover, labels) = solve(&net, Mode::Plain, k, target, limits)?;
    Ok(text(&net, &cover, &labels))
}

/// For each node the largest number on any connection or output it feeds, added. Sorted
/// by node and number, the last of each node is its largest.
pub fn registers(net: &Net, cover: &Cover) -> i64 {
    let mut all = cover.connections(net).expect("a gate without a LUT");
    all.sort_unstable();
    let nodes = all.chunk_by(|one, next| one.0 == next.0);
    nodes.map(|own| own[own.len() - 1].1).sum()
}

fn text(net: &Net, cover: &Cover, labels: &[i64]) -> String {
    let count = cover.luts.len();
    let registers = registers(net, cover);
    let mut text = format!(
        "period {} luts {count} registers {registers}\n",
        cover.period
    );
    for lut in &cover.luts {
        let digits = ((1 << lut.leaves.len()) / 4).max(1);
        let label = labels[lut.root];
        write!(text, "lut {} label {label} lag {} ", lut.root, lut.lag).expect("a string");
        write!(text, "table {:0digits$x} leaves", lut.table).expect("a string");
        for leaf in &lut.leaves {
            write!(text, " {}:{}", leaf.node, leaf.d).expect("a string");
        }
        text.push('\n');
    }
    text
}
