//! The proved programs over standard input and output.

use std::fs::File;
use std::io::{Seek, Write};
use std::process::{Command, Output, Stdio};

const FOLDER: &str = concat!(env!("CARGO_MANIFEST_DIR"), "/../../target/bin/");

/// What a program prints.
pub fn printed(program: &str, given: &[u8]) -> String {
    let mut child = Command::new(FOLDER.to_string() + program)
        .stdin(Stdio::piped())
        .stdout(Stdio::piped())
        .spawn()
        .expect("the program starts; `make programs` builds it");
    let mut input = child.stdin.take().expect("its input");
    let given = given.to_vec();
    // The program may print before it has read all, and need not read all.
    let writer = std::thread::spawn(move || input.write_all(&given));
    let output = child.wait_with_output().expect("its output");
    let _ = writer.join().expect("the thread ends");
    text(output)
}

/// What a program prints for a file, and where in the file its standard input then stands.
pub fn printed_from(program: &str, mut file: File) -> (String, u64) {
    let input = file.try_clone().expect("the same file");
    let mut command = Command::new(FOLDER.to_string() + program);
    let output = command.stdin(input).output();
    let output = output.expect("the program runs; `make programs` builds it");
    (text(output), file.stream_position().expect("a place"))
}

fn text(output: Output) -> String {
    assert!(output.status.success());
    String::from_utf8(output.stdout).expect("text")
}
