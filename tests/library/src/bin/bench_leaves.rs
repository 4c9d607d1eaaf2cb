//! Times of the library's mark on records whose LUTs have six leaves and large cones, in
//! microseconds: the least and the middle one of many calls. Each record has 32 LUTs; the
//! copies of the smallest and of the largest cone are shown, and those of all together.
//!
//! `bench_leaves [calls]`. It times the library that it is linked with; two libraries are
//! compared by running one program with each. Build with the profile `timing`.
//!
//! "wrong root" has a leaf in place of the first LUT's root, so the record is turned back
//! with 14 before any walk: what is left is the time of everything else.

use library::nets::{ring_cover, ring_from_input, ring_from_last};
use second::encode::encode;
use second::jobs::SCRATCH_BYTES;
use second::{cone_of, write_record, Net, NodeCopy};
use std::time::Instant;

fn main() {
    let calls = std::env::args().nth(1).and_then(|calls| calls.parse().ok());
    let calls = calls.unwrap_or(300);
    println!("mark of a ring of 32 gates, each LUT with the same six leaves, {calls} calls");
    println!(
        "{:28} {:>10} {:>7} {:>10} {:>10}",
        "leaves", "cones", "copies", "least", "middle"
    );
    for (name, (net, leaves)) in [
        ("below the cone's nodes", ring_from_input(32)),
        ("above the cone's nodes", ring_from_last(32)),
    ] {
        time(name, &net, &leaves, calls);
    }
}

/// All LUTs with these leaves, and the same record with a wrong first root.
fn time(name: &str, net: &Net, leaves: &[NodeCopy], calls: usize) {
    let mut cover = ring_cover(net, leaves);
    let size = |root| cone_of(net, root, leaves).map_or(0, |cone| cone.len());
    let sizes: Vec<usize> = net.gate_nodes().map(size).collect();
    let cones = format!(
        "{}..{}",
        sizes.iter().filter(|size| **size > 0).min().unwrap_or(&0),
        sizes.iter().max().unwrap_or(&0)
    );
    let copies = sizes.iter().sum();
    let bytes = encode(net);
    row(
        name,
        &cones,
        copies,
        &bytes,
        &write_record(&cover),
        Ok(0),
        calls,
    );
    let lut = &mut cover.luts[0];
    lut.leaves[0] = NodeCopy {
        node: lut.root,
        d: 0,
    };
    lut.leaves.sort_unstable();
    let record = write_record(&cover);
    row("  wrong root", "", 0, &bytes, &record, Err(14), calls);
}

fn row(
    name: &str,
    cones: &str,
    copies: usize,
    net: &[u8],
    record: &[u8],
    expected: Result<usize, u8>,
    calls: usize,
) {
    let mut scratch = vec![0; SCRATCH_BYTES];
    let mut times = Vec::new();
    for _ in 0..calls {
        let start = Instant::now();
        let answer = kamfelu::mark(net, 6, record, &mut scratch);
        times.push(start.elapsed().as_secs_f64() * 1e6);
        assert_eq!(answer, expected, "mark's answer");
    }
    times.sort_by(f64::total_cmp);
    let (least, middle) = (times[0], times[times.len() / 2]);
    println!("{name:28} {cones:>10} {copies:7} {least:10.1} {middle:10.1}");
}
