//! `second listing`, `second map`, `second mark`, `second bench`, `second reading` and `second classes`
//! over standard input and output.
//!
//! Exit codes: 0 also for refusals, 2 for a wrong call, 3 where it gave up.

use second::listing::GAVE_UP;
use second::programs::{bench, classes, listing, map, mark, reading};
use std::io::{Read, Write};
use std::process::ExitCode;

fn main() -> ExitCode {
    let args: Vec<String> = std::env::args().skip(1).collect();
    let job: fn(&[u8]) -> Vec<u8> = match args.as_slice() {
        [verb] if verb == "listing" => listing,
        [verb] if verb == "map" => map,
        [verb] if verb == "mark" => mark,
        [verb] if verb == "bench" => bench,
        [verb] if verb == "reading" => reading,
        [verb] if verb == "classes" => classes,
        _ => {
            eprintln!("usage: second listing | map | mark | bench | reading | classes");
            return ExitCode::from(2);
        }
    };
    let mut given = Vec::new();
    if let Err(error) = std::io::stdin().read_to_end(&mut given) {
        eprintln!("standard input: {error}");
        return ExitCode::from(2);
    }
    let out = job(&given);
    if let Err(error) = std::io::stdout().write_all(&out) {
        eprintln!("standard output: {error}");
        return ExitCode::from(2);
    }
    if out == GAVE_UP.as_bytes() {
        ExitCode::from(3)
    } else {
        ExitCode::SUCCESS
    }
}
