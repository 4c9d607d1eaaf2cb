//! The stack of the compiled library, by counting: each function's frame is read off its code, and no
//! function can call itself but gate and pin evaluation, which nest three deep. All of them together fit
//! 256 KiB, and calls run in a thread with no more.

use kamfelu::STACK;
use library::areas::Areas;
use library::nets::{of_family, FAMILIES};
use second::encode::{encode, with_section};
use second::Random;
use std::collections::BTreeMap;
use std::path::Path;
use std::process::Command;

/// For the functions of the C library that clear and copy, and the caller.
const ROOM: usize = 16 << 10;

/// Gate evaluation and pin evaluation call each other. A gate's sources without registers are valued before it,
/// so calls nest no deeper than gate, pin, node.
const NESTED: [&str; 2] = ["run_values::node_value", "run_values::pin_value"];
const DEEP: usize = 3;

#[derive(Default)]
struct Function {
    /// The most that a call of it takes: its return address, what it saves and reserves, and the
    /// arguments that it passes on the stack, all of them counted at once.
    frame: usize,
    calls: Vec<String>,
}

/// The number behind `sub $0x.. ,%rsp`.
fn reserved(line: &str) -> Option<usize> {
    let rest = line.trim().strip_prefix("sub ")?.trim();
    let number = rest.strip_suffix(",%rsp")?.strip_prefix("$0x")?;
    usize::from_str_radix(number, 16).ok()
}

fn functions(code: &str) -> BTreeMap<String, Function> {
    let mut all = BTreeMap::new();
    let mut name = String::new();
    for line in code.lines() {
        if let Some(head) = line.strip_suffix(">:") {
            let start = head.find('<').expect("a name") + 1;
            name = head[start..].to_string();
            let fresh = Function {
                frame: 8,
                calls: Vec::new(),
            };
            assert!(
                all.insert(name.clone(), fresh).is_none(),
                "{name} stands twice"
            );
            continue;
        }
        let Some((_, text)) = line.split_once(":\t") else {
            continue;
        };
        let function: &mut Function = match all.get_mut(&name) {
            Some(function) => function,
            None => continue,
        };
        if text.trim_start().starts_with("push ") {
            function.frame += 8;
        } else if let Some(bytes) = reserved(text) {
            function.frame += bytes;
        } else if text.contains("%rsp,%rsp") || text.contains("and ") && text.ends_with(",%rsp") {
            panic!("{name}: {text} is not counted");
        }
        let leaves = text.trim_start();
        if leaves.starts_with("call") || leaves.starts_with("jmp") {
            if let Some(start) = leaves.find('<') {
                let target = leaves[start + 1..].trim_end().trim_end_matches('>');
                if !target.contains('+') {
                    function.calls.push(target.to_string());
                }
            }
        }
    }
    all
}

/// Whether a chain of calls leads from one function to another without the first calling itself.
fn leads(all: &BTreeMap<String, Function>, from: &str, to: &str) -> bool {
    let mut seen = vec![from];
    let mut at = 0;
    while at < seen.len() {
        for next in &all[seen[at]].calls {
            if next == to && seen[at] != to {
                return true;
            }
            if let Some((known, _)) = all.get_key_value(next) {
                if !seen.contains(&known.as_str()) {
                    seen.push(known);
                }
            }
        }
        at += 1;
    }
    false
}

#[test]
fn the_stack_fits_256_kib() {
    let archive = Path::new(env!("CARGO_MANIFEST_DIR")).join("../../target/staticlib/libkamfelu.a");
    let printed = Command::new("objdump")
        .args(["-d", "-r", "--no-show-raw-insn"])
        .arg(&archive)
        .output()
        .expect("objdump, of binutils");
    assert!(printed.status.success());
    let code = String::from_utf8(printed.stdout).expect("text");
    // Calls are named by their relocations, which stand on the line behind them.
    let mut lines: Vec<String> = Vec::new();
    for line in code.lines() {
        match (line.split_once("R_X86_64_PLT32\t"), lines.last_mut()) {
            (Some((_, target)), Some(last)) => {
                let target = target.trim_end_matches("-0x4").trim_start_matches(".text.");
                let cut = last.find('<').unwrap_or(last.len());
                last.truncate(cut);
                last.push_str(&format!("<{target}>"));
            }
            _ => lines.push(line.to_string()),
        }
    }
    let all = functions(&lines.join("\n"));
    for job in [
        "kamfelu_map",
        "kamfelu_map_loader",
        "kamfelu_map_forward",
        "kamfelu_change_over",
        "kamfelu_mark",
    ] {
        assert!(all.contains_key(job), "{job}");
    }

    let mut total = ROOM;
    for (name, function) in &all {
        let alone = !function.calls.contains(name) && !leads(&all, name, name);
        let nested = NESTED.contains(&name.as_str());
        assert!(alone || nested, "{name} can call itself");
        total += if nested { DEEP } else { 1 } * function.frame;
    }
    println!("at most {total} bytes of stack");
    assert!(total <= STACK, "{total} bytes");
}

/// Map, with and without a loader area, forward map, the change-over and mark on nets of all families, at all k, in a
/// thread with so little stack.
#[test]
fn calls_in_a_small_thread() {
    let mut random = Random::new(4100);
    let mut nets = Vec::new();
    for family in 0..FAMILIES.len() {
        for gates in [8, 20, 32] {
            nets.push(encode(&of_family(family, &mut random, gates, 6)));
        }
    }
    let small = std::thread::Builder::new().stack_size(STACK);
    let work = move || {
        let mut areas = Areas::default();
        let mut accepted = 0;
        for net in &nets {
            for k in 2..=6 {
                let (cover, scratch) = (&mut areas.cover, &mut areas.scratch);
                let Ok(length) = kamfelu::map(net, k, 0, cover, scratch) else {
                    continue;
                };
                let excess = kamfelu::mark(net, k, &cover[..length], scratch);
                assert_eq!(excess, Ok(0));
                let loaded = kamfelu::map_loader(net, k, 0, cover, scratch, &mut areas.loader);
                assert_eq!(loaded, Ok(length));
                let nodes = usize::from(net[0]) + usize::from(net[1]);
                let net = with_section(net, &vec![6; nodes]);
                let answer = areas.forward(&net, k, 0);
                assert!(answer.is_ok());
                assert_eq!(areas.change_over(&net, k, 0, &[0x5a; 41]), answer);
                accepted += 1;
            }
        }
        accepted
    };
    let accepted = small.spawn(work).expect("a thread").join();
    assert!(accepted.expect("the thread ends") > 0);
}
