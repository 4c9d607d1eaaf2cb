//! Berkeley's ABC, where it is installed: the period its `&sif` finds for nets written as
//! BLIF.

use second::Net;
use std::fmt::Write;
use std::path::{Path, PathBuf};
use std::process::Command;
use std::time::{Duration, Instant};

/// The program's path.
pub fn installed() -> Option<PathBuf> {
    let path = std::env::var_os("PATH").unwrap_or_default();
    let named = |name: &str| {
        let at = |folder: PathBuf| Some(folder.join(name)).filter(|file| file.is_file());
        std::env::split_paths(&path).find_map(at)
    };
    named("berkeley-abc").or_else(|| named("abc"))
}

/// The net as BLIF; `n5_2` is node 5 seen two registers back.
pub fn blif(net: &Net) -> String {
    let mut text = String::from(".model net\n.inputs");
    (0..net.inputs).for_each(|i| put(&mut text, &format!(" n{i}_0")));
    put(&mut text, "\n.outputs");
    (0..net.outputs.len()).for_each(|o| put(&mut text, &format!(" o{o}")));
    put(&mut text, "\n");
    let pins = net.gates.iter().flat_map(|gate| &gate.pins);
    let reads: Vec<_> = pins.chain(&net.outputs).collect();
    for v in 0..net.nodes() {
        let own = reads.iter().filter(|read| read.source == v);
        for d in 1..=own.map(|read| read.count).max().unwrap_or(0) {
            put(&mut text, &format!(".latch n{v}_{} n{v}_{d} 0\n", d - 1));
        }
    }
    for v in net.gate_nodes() {
        let gate = net.gate(v);
        put(&mut text, ".names");
        // Without a row there must be no pin either.
        for pin in gate.pins.iter().filter(|_| gate.table != 0) {
            put(&mut text, &format!(" n{}_{}", pin.source, pin.count));
        }
        put(&mut text, &format!(" n{v}_0\n"));
        for row in (0..1u64 << gate.pins.len()).filter(|row| gate.table >> row & 1 == 1) {
            let bit = |j: usize| if row >> j & 1 == 1 { '1' } else { '0' };
            let bits: String = (0..gate.pins.len()).map(bit).collect();
            put(&mut text, &format!("{bits} 1\n"));
        }
    }
    for (o, read) in net.outputs.iter().enumerate() {
        put(
            &mut text,
            &format!(".names n{}_{} o{o}\n1 1\n", read.source, read.count),
        );
    }
    text + ".end\n"
}

fn put(text: &mut String, more: &str) {
    text.write_str(more).expect("a string");
}

/// `&sif` runs so often on a net, for its time: it takes microseconds, reading the net more.
/// It leaves ABC's net as it is, so that each turn does the same.
const TURNS: usize = 400;

/// The period of each net, none where there was none, and the time of one `&sif`: from a
/// run over all nets less a run which only reads them.
pub fn periods(
    program: &Path,
    nets: &[(Net, u32)],
) -> std::io::Result<(Vec<Option<u32>>, Duration)> {
    let folder = std::env::temp_dir().join(format!("kamfelu-abc-{}", std::process::id()));
    std::fs::create_dir_all(&folder)?;
    let (mut whole, mut reading) = (String::new(), String::new());
    for (i, (net, k)) in nets.iter().enumerate() {
        std::fs::write(folder.join(format!("{i}.blif")), blif(net))?;
        let read = format!("read_blif {i}.blif\nstrash\n&get\n");
        put(&mut reading, &read);
        put(&mut whole, &format!("echo Net {i}\n{read}&sif -K {k} -v\n"));
        put(&mut whole, &format!("&sif -K {k}\n").repeat(TURNS - 1));
    }
    let run = |script: &str| -> std::io::Result<(String, Duration)> {
        std::fs::write(folder.join("script"), script)?;
        let start = Instant::now();
        let mut command = Command::new(program);
        let output = command
            .args(["-f", "script"])
            .current_dir(&folder)
            .output()?;
        let text = String::from_utf8_lossy(&output.stdout).into_owned();
        Ok((text, start.elapsed()))
    };
    let (_, before) = run(&reading)?;
    let (text, all) = run(&whole)?;
    std::fs::remove_dir_all(&folder)?;
    let mut found = vec![None; nets.len()];
    let mut at = 0;
    for line in text.lines() {
        if let Some(number) = line.strip_prefix("Net ") {
            at = number.trim().parse().expect("a net's number");
        } else if let Some(rest) = line.strip_prefix("Clock period =") {
            found[at] = rest.split_whitespace().next().and_then(|n| n.parse().ok());
        }
    }
    let each = all.saturating_sub(before) / (TURNS * nets.len().max(1)) as u32;
    Ok((found, each))
}
