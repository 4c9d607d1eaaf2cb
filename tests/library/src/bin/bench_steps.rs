//! Times in milliseconds on nets of 32 gates: of the program `bench` on 65,535 steps and of the second mapper on the
//! same input; of a change-over behind a million pairs, of forward map of the same net, and of the second mapper's run.
//! The program's time is that of the whole process, its input from a pipe; each is timed five times and the least time
//! counts. Build with the profile `timing`.
//!
//! `bench_steps [nets] [seed]`: 5, 1.

use library::areas::Areas;
use library::bench::{expected, input, of_32_gates};
use library::programs::printed;
use second::bench::MOST_STEPS;
use second::{contents_after, read_record, read_with_section, Random};
use std::time::Instant;

/// The pairs in front of a change-over.
const PAIRS: usize = 1_000_000;
const K: u32 = 6;

/// What a work gives, and its least time of five.
fn best<T>(mut work: impl FnMut() -> T) -> (T, f64) {
    let timed = |_| {
        let start = Instant::now();
        let given = work();
        (given, start.elapsed().as_secs_f64() * 1e3)
    };
    let tries = (0..5).map(timed);
    let least = tries.min_by(|one, other| one.1.total_cmp(&other.1));
    least.expect("five tries")
}

fn some_bytes(random: &mut Random, number: usize) -> Vec<u8> {
    (0..number).map(|_| random.byte()).collect()
}

fn programs(nets: u64, random: &mut Random) {
    println!("\n{MOST_STEPS} steps of nets of 32 gates, in milliseconds");
    println!("net   bench  second mapper");
    for net in 1..=nets {
        let bytes = of_32_gates(random);
        let steps = some_bytes(random, 2 * MOST_STEPS);
        let given = input(K as u8, &bytes, &steps);
        let (text, program) = best(|| printed("bench", &given));
        let (other, second) = best(|| expected(&given));
        let told = if text == other { "" } else { "  other lines" };
        println!("{net:3} {program:7.1} {second:14.1}{told}");
    }
}

fn change_overs(nets: u64, random: &mut Random) {
    println!("\nchange-over behind {PAIRS} pairs, nets of 32 gates, in milliseconds");
    println!("net  change-over  forward map  second mapper's run");
    for number in 1..=nets {
        let bytes = of_32_gates(random);
        let pairs = some_bytes(random, 2 * PAIRS);
        let mut areas = Areas::default();
        let (first, forward) = best(|| areas.forward(&bytes, K, 0));
        let mut areas = Areas::default();
        let (answer, change) = best(|| areas.change_over(&bytes, K, 0, &pairs));
        let length = answer.expect("a record");
        let (net, section) = read_with_section(&bytes, K).expect("a net");
        let section = section.expect("a section");
        let cover = read_record(&net, K, &areas.cover[..length]).expect("a record");
        let (contents, second) = best(|| contents_after(&net, &section, &cover, &pairs));
        let same = first == answer && areas.written() == contents;
        let told = if same { "" } else { "  other contents" };
        println!("{number:3} {change:12.1} {forward:12.1} {second:20.1}{told}");
    }
}

fn main() {
    let mut given = std::env::args()
        .skip(1)
        .map(|text| text.parse::<u64>().expect("a number"));
    let nets = given.next().unwrap_or(5);
    let mut random = Random::new(given.next().unwrap_or(1));
    programs(nets, &mut random);
    change_overs(nets, &mut random);
}
