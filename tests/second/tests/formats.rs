//! docs/FORMATS.md: its bytes are those of the example files, and its shell lines make files for which
//! the programs print what it says. The second mapper stands for the programs.

use second::bench::steps;
use second::bytes::table_bytes;
use second::contents::CONTENTS_BYTES;
use second::jobs::{COVER_BYTES, LONG, SCRATCH_BYTES};
use second::loader::image;
use second::programs::{bench, listing, map, mark};
use second::{
    map_within, read_net, read_with_section, solve, Answer, Areas, Bench, Cover, Job, Limits, Lut,
    Mode, NodeCopy,
};
use std::fs;
use std::path::Path;
use std::process::Command;

const ROOT: &str = concat!(env!("CARGO_MANIFEST_DIR"), "/../..");

fn file(name: &str) -> Vec<u8> {
    fs::read(Path::new(ROOT).join(name)).unwrap_or_else(|error| panic!("{name}: {error}"))
}

/// The text under a heading.
fn section(heading: &str) -> String {
    let text = String::from_utf8(file("docs/FORMATS.md")).expect("text");
    let start = format!("## {heading}\n");
    let behind = text.split_once(&start).expect(heading).1;
    behind.split("\n## ").next().unwrap().to_string()
}

fn bytes(text: &str) -> Vec<u8> {
    let byte = |word| u8::from_str_radix(word, 16).unwrap_or_else(|_| panic!("{word}"));
    text.split_whitespace().map(byte).collect()
}

/// The bytes in the first column of a section's table.
fn column(heading: &str) -> Vec<u8> {
    let text = section(heading);
    let cells = text.lines().filter_map(|line| line.strip_prefix("| `"));
    cells
        .flat_map(|cell| bytes(cell.split('`').next().unwrap()))
        .collect()
}

/// The blocks of a kind: what stands between lines of three backquotes, the word behind the first
/// of them being the kind.
fn blocks(heading: &str, kind: &str) -> Vec<String> {
    let text = section(heading);
    let parts = text.split("```").skip(1).step_by(2);
    let split = parts.map(|part| part.split_once('\n').expect("a line"));
    let of_kind = split.filter(|(word, _)| *word == kind);
    of_kind.map(|(_, block)| block.to_string()).collect()
}

/// Runs lines of shell in a folder.
fn run(lines: &str, folder: &Path) {
    let mut shell = Command::new("sh");
    shell.args(["-e", "-c", lines]).current_dir(folder);
    assert!(shell.status().expect("sh").success());
}

#[test]
fn net_a() {
    assert_eq!(column("Net A, byte by byte"), file("examples/net-a.bin"));
    let listed = listing(&file("examples/net-a.bin"));
    assert_eq!(listed, blocks("Listing", "")[0].as_bytes());
}

#[test]
fn cover_of_net_a() {
    let cover = column("Net A's cover, byte by byte");
    assert_eq!(cover, map(&file("examples/net-a.bin")));
    let marked = bytes(&blocks("Marking", "")[0]);
    assert_eq!(marked, file("examples/mark-a.bin"));
    assert!(marked.ends_with(&cover));
    assert_eq!(mark(&marked), b"excess 1\n");
}

#[test]
fn bench_of_net_c() {
    let blocks = blocks("Bench", "");
    let given = bytes(&blocks[0]);
    assert_eq!(given, file("examples/bench-c.bin"));
    assert_eq!(bench(&given), blocks[1].as_bytes());
    // Net C as it ships, but for bit 7, then the section.
    let c = &file("examples/net-c.bin")[2..];
    assert_eq!(
        given[3..4 + c.len()],
        [&[c[0] | 0x80], &c[1..], &[1]].concat()
    );
}

#[test]
fn loader_image() {
    let heading = "The loader image";
    let net = read_net(&file("examples/net-a.bin")[2..], 2).expect("net A");
    let (cover, _) = solve(&net, Mode::Plain, 2, 0, Limits::default()).expect("a cover");
    assert_eq!(column(heading), image(&cover));
    // A row for each number of leaves: a table as the record has it, then its image, if that is another.
    let text = section(heading);
    let cells = text.lines().map(|line| line.split('|').map(str::trim));
    let rows = cells.map(|cells| cells.collect::<Vec<&str>>());
    let rows = rows.filter(|row| row.len() > 4 && row[1].parse::<usize>().is_ok());
    let mut leaves = 0;
    for row in rows {
        leaves += 1;
        let numbers = row[1..3].iter().map(|cell| cell.parse());
        assert!(numbers.eq([Ok(leaves), Ok(1 << leaves)]), "{row:?}");
        let mut quoted = row[4].split('`').skip(1).step_by(2).map(bytes);
        let table = quoted.next().expect("a table");
        assert_eq!(table.len(), table_bytes(leaves));
        let places = (0..).step_by(8).zip(&table);
        let lut = Lut {
            root: 6,
            leaves: (0..leaves).map(|node| NodeCopy { node, d: 0 }).collect(),
            lag: 0,
            table: places.map(|(at, &byte)| u64::from(byte) << at).sum(),
        };
        let cover = Cover {
            period: 1,
            luts: vec![lut],
        };
        assert_eq!(quoted.next().unwrap_or(table), image(&cover), "{row:?}");
    }
    assert_eq!(leaves, 6);
}

/// The record and contents that a job writes for a net at k 2 and target 1; the contents end where the 7 begin.
fn written(job: Job, net: &[u8]) -> (Vec<u8>, Vec<u8>) {
    let (mut cover, mut scratch) = (vec![0; COVER_BYTES], vec![0; SCRATCH_BYTES]);
    let mut contents = vec![7; CONTENTS_BYTES];
    let areas = Areas {
        cover: &mut cover,
        scratch: &mut scratch,
        loader: &mut [],
        contents: &mut contents,
    };
    let answer = map_within(LONG, job, Limits::default(), net, 2, 1, areas);
    let Answer::Done(length) = answer else {
        panic!("{answer:?}");
    };
    cover.truncate(length as usize);
    let end = contents.iter().position(|&byte| byte == 7);
    contents.truncate(end.expect("bytes behind"));
    (cover, contents)
}

/// The net and the record under "First contents".
fn net_and_record() -> (Vec<u8>, Vec<u8>) {
    let blocks = blocks("First contents", "");
    (bytes(&blocks[0]), bytes(&blocks[1]))
}

#[test]
fn first_contents() {
    let (net, record) = net_and_record();
    let contents = column("First contents");
    assert_eq!(written(Job::Forward, &net), (record, contents));
}

#[test]
fn contents_at_a_change_over() {
    let heading = "Contents at a change-over";
    let (net, record) = net_and_record();
    let pairs = bytes(&blocks(heading, "")[0]);
    let contents = column(heading);
    let changed = |pairs: &[u8]| written(Job::ChangeOver(pairs), &net);
    assert_eq!(changed(&pairs), (record.clone(), contents.clone()));
    let text = section(heading);
    let quoted = |before: &str| {
        let behind = text.split_once(before).expect(before).1;
        bytes(behind.split('`').next().unwrap())
    };
    // The section that the last three values make, and a lone last byte.
    let (read, at_first) = read_with_section(&net, 2).expect("a net");
    let at_first = at_first.expect("a section");
    let later = quoted("first contents for the section `");
    assert_eq!(Bench::after(&read, &at_first, &pairs).section(), later);
    let bare = &net[..net.len() - later.len()];
    let again = written(Job::Forward, &[bare, &later].concat());
    assert_eq!(again, (record.clone(), contents));
    let odd = quoted("The pairs `");
    assert_eq!(odd.len(), 3);
    assert_eq!(changed(&odd), (record, quoted("the contents are then `")));
    // The table of values: the section's three steps, those of the pairs, and one more of the gate.
    let rows = text.lines().filter(|line| line.ends_with(" |"));
    let values = rows.filter(|line| line.starts_with("| input") || line.starts_with("| gate"));
    let values: Vec<&str> = values.collect();
    assert_eq!(values.len(), read.nodes());
    for (node, line) in values.into_iter().enumerate() {
        let cells: Vec<&str> = line.split('|').map(str::trim).skip(2).collect();
        let mut bench = Bench::new(&read, &at_first);
        for (cell, back) in cells.iter().zip([2, 1, 0]) {
            assert_eq!(cell.parse(), Ok(at_first[node] >> back & 1));
        }
        for (cell, inputs) in cells[3..].iter().zip(steps(&pairs).chain([0])) {
            bench.step(inputs);
            let value = u8::from(bench.now()[node]);
            assert!(*cell == "–" || cell.parse() == Ok(value), "{line}");
        }
    }
}

#[test]
fn files_by_hand() {
    let heading = "Files by hand";
    let folder = Path::new(env!("CARGO_TARGET_TMPDIR")).join("formats");
    fs::create_dir_all(&folder).expect("a folder");
    let made = |name: &str| fs::read(folder.join(name)).expect(name);
    run(&blocks(heading, "sh").concat(), &folder);
    let printed = blocks(heading, "");
    assert_eq!(listing(&made("odd.bin")), printed[0].as_bytes());
    let mut given = made("mark-odd.bin");
    assert_eq!(mark(&given), printed[1].as_bytes());
    *given.last_mut().unwrap() = 7;
    assert_eq!(mark(&given), b"refused 15\n");
    assert_eq!(bench(&made("bench-odd.bin")), printed[2].as_bytes());

    let text = section(heading);
    let octal = text.split('`').find(|part| part.starts_with("printf '"));
    run(&octal.expect("printf").replace("odd", "octal"), &folder);
    assert_eq!(made("octal.bin"), made("odd.bin"));
}
