//! The program `second` over standard input and output.

mod common;

use common::{net_a, net_bytes, GateText};
use std::io::Write;
use std::process::{Command, Stdio};

/// What the program prints, and its exit code.
fn second(verb: &str, given: &[u8]) -> (Vec<u8>, i32) {
    let mut child = Command::new(env!("CARGO_BIN_EXE_second"))
        .arg(verb)
        .stdin(Stdio::piped())
        .stdout(Stdio::piped())
        .spawn()
        .expect("the program starts");
    child.stdin.take().unwrap().write_all(given).unwrap();
    let output = child.wait_with_output().unwrap();
    (output.stdout, output.status.code().unwrap())
}

fn text(verb: &str, given: &[u8]) -> String {
    let (out, code) = second(verb, given);
    assert_eq!(code, 0);
    String::from_utf8(out).unwrap()
}

const RECORD_A: [u8; 16] = [2, 2, 2, 2, 0, 0, 1, 8, 4, 2, 2, 2, 4, 1, 0, 9];

#[test]
fn listing() {
    let given = [&[2, 0][..], &net_a()].concat();
    let printed = "period 2 luts 2 registers 1\n\
        lut 2 label 1 lag 0 table 8 leaves 0:0 1:0\n\
        lut 4 label 2 lag 0 table 9 leaves 2:0 4:1\n";
    assert_eq!(text("listing", &given), printed);
    assert_eq!(text("listing", &[]), "refused 1\n");
    assert_eq!(text("listing", &[2]), "refused 4\n");
    assert_eq!(text("listing", &[2, 33]), "refused 2\n");
    assert_eq!(text("listing", &[7, 33]), "refused 1\n");
    assert_eq!(text("listing", &[given, vec![0]].concat()), "refused 8\n");
}

#[test]
fn map() {
    let given = [&[2, 0][..], &net_a()].concat();
    assert_eq!(second("map", &given), (RECORD_A.to_vec(), 0));
    let given = [&[2, 1][..], &net_a()].concat();
    assert_eq!(text("map", &given), "refused 12\n");
    assert_eq!(text("map", &[]), "refused 1\n");
    assert_eq!(text("map", &[2]), "refused 4\n");
}

#[test]
fn mark() {
    let given = |k: u8| [&[k, net_a().len() as u8, 0][..], &net_a(), &RECORD_A].concat();
    assert_eq!(text("mark", &given(3)), "excess 1\n");
    assert_eq!(text("mark", &given(2)), "excess 0\n");
    assert_eq!(text("mark", &given(7)), "refused 1\n");
    assert_eq!(text("mark", &[]), "refused 1\n");
    assert_eq!(text("mark", &[2, 255, 255]), "refused 4\n");
    assert_eq!(
        text("mark", &[&[2, 20, 0][..], &net_a()].concat()),
        "refused 13\n"
    );
}

#[test]
fn bench() {
    // Net C with a section, two steps and a lone byte.
    let net = [130, 1, 1, 3, 3, 0, 1, 1, 1, 8, 0, 2, 1, 1, 0];
    let given = [&[2, 15, 0][..], &net, &[2, 0, 9, 0, 3]].concat();
    assert_eq!(text("bench", &given), "1\n0\n");
    assert_eq!(text("bench", &given[..18]), "");
    assert_eq!(text("bench", &given[..17]), "refused 4\n");
    assert_eq!(text("bench", &[]), "refused 1\n");
    let without = [&[2, 20, 0][..], &net_a()].concat();
    assert_eq!(text("bench", &without), "refused 21\n");
}

#[test]
fn reading() {
    let case = |k: u8| [&[k, net_a().len() as u8, 0][..], &net_a()].concat();
    let given = [case(2), case(1), vec![2, 1, 0, 17], vec![2]].concat();
    let printed = "read 2 3 1\nrefused 7\nrefused 5\nrefused 4\n";
    assert_eq!(text("reading", &given), printed);
    assert_eq!(text("reading", &[]), "");
}

#[test]
fn another_verb() {
    let (out, code) = second("other", &[]);
    assert_eq!((out, code), (Vec::new(), 2));
}

#[test]
fn too_many_cuts() {
    // Four copies of one line of gates, each cut anywhere: over a million cuts.
    let pins: Vec<[(usize, u32); 1]> = (0..31).map(|i| [(i, 0)]).collect();
    let mut gates: Vec<GateText> = pins.iter().map(|pin| (&pin[..], 2)).collect();
    gates.push((&[(31, 0), (31, 1), (31, 2), (31, 3)], 1 << 15));
    let net = net_bytes(1, &gates, &[(32, 0)]);
    let given = [&[4, 0][..], &net].concat();
    assert_eq!(second("listing", &given), (b"gave up\n".to_vec(), 3));
    assert_eq!(second("map", &given), (b"gave up\n".to_vec(), 3));
}

#[test]
fn classes() {
    let printed = text("classes", &[]);
    assert!(printed.starts_with("0\n1\n1\n3\n1\n3\n6\n7\n1\n6\n"));
    assert!(printed.ends_with("\n3\n1\n1\n0\n"));
    assert_eq!(printed.lines().count(), 256);
}
