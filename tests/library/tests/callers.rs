//! The examples that call the library from C and from Rust are compiled as the README says, and print what it says;
//! that of the crate `kamfelu` too. From C an area of length 0 may also be NULL, as the header says.

use std::path::{Path, PathBuf};
use std::process::Command;

/// The examples, and what each prints.
const PRINTED: [(&str, &str); 7] = [
    ("map_and_mark", "map: 16 bytes, period 2\nmark: excess 1\n"),
    (
        "loader",
        "map: 16 bytes, 2 LUTs\n88 88 88 88 88 88 88 88\n99 99 99 99 99 99 99 99\n",
    ),
    (
        "forward",
        "map: 13 bytes, period 1\nleaf 0:1 of LUT 2, registers 0\nleaf 1:1 of LUT 2, registers 0\n\
         output 0, registers 1: 1\noutput 1, registers 2: 1 0\n",
    ),
    (
        "change_over",
        "step 0: 13 bytes, period 1, output 0: 1, output 1: 1 0\n\
         step 1: 13 bytes, period 1, output 0: 1, output 1: 1 1\n\
         step 2: 13 bytes, period 1, output 0: 0, output 1: 0 1\n\
         step 3: 13 bytes, period 1, output 0: 0, output 1: 1 0\n",
    ),
    ("class", "class of 232: 23\n"),
    ("align", "align: shift 3\n"),
    (
        "find_root",
        "gate 2: LUT at byte 2\ngate 3: no LUT\ngate 4: LUT at byte 8\n",
    ),
];

fn root() -> PathBuf {
    Path::new(env!("CARGO_MANIFEST_DIR")).join("../..")
}

fn printed(compile: &mut Command, program: &Path) -> String {
    let built = compile.current_dir(root()).status();
    assert!(built.expect("a compiler").success());
    let output = Command::new(program).output().expect("the program runs");
    let text = String::from_utf8(output.stdout).expect("text");
    assert!(output.status.success(), "{text}");
    text
}

/// What a C program that calls the library prints.
fn printed_from_c(source: &str, name: &str) -> String {
    let program = Path::new(env!("CARGO_TARGET_TMPDIR")).join(name);
    let mut compile = Command::new("cc");
    compile
        .args([source, "-Iinclude"])
        .args(["target/staticlib/libkamfelu.a", "-o"])
        .arg(&program);
    printed(&mut compile, &program)
}

#[test]
fn from_c() {
    for (name, text) in PRINTED {
        let source = format!("examples/{name}.c");
        assert_eq!(printed_from_c(&source, &format!("{name}_c")), text);
    }
}

#[test]
fn null_pointers() {
    let text = printed_from_c("tests/library/c/null.c", "null_c");
    assert_eq!(text, "as expected\n");
}

#[test]
fn from_rust() {
    for (name, text) in PRINTED {
        let program = Path::new(env!("CARGO_TARGET_TMPDIR")).join(format!("{name}_rust"));
        let mut compile = Command::new("rustc");
        compile
            .args([
                &format!("examples/{name}.rs"),
                "-L",
                "target/staticlib",
                "-o",
            ])
            .arg(&program);
        assert_eq!(printed(&mut compile, &program), text);
    }
}

/// The crate's example is run as the README says.
#[test]
fn from_the_crate() {
    let output = Command::new("cargo")
        .args(["run", "--release", "--offline", "--quiet"])
        .args(["--example", "map_and_mark"])
        .current_dir(root().join("rust"))
        .output()
        .expect("cargo");
    let told = String::from_utf8_lossy(&output.stderr);
    assert!(output.status.success(), "{told}");
    let text = String::from_utf8(output.stdout).expect("text");
    assert_eq!(text, "map: 16 bytes, period 2\nmark: Ok(1)\n");
}
