//! Map with and without a loader area, forward map, the change-over, mark, those of the short course and now and then
//! the programs listing and bench against the second mapper for some minutes, on nets and candidates of every kind.
//!
//! `soak [minutes] [seed]`: 20 minutes, and a seed from the clock. The exit code is 1 if
//! there is a difference.

use library::bench::random_bench;
use library::compare::Sides;
use library::listing::random_listing;
use library::tally::{each_thread, Tally};
use second::jobs::SHORT;
use second::Random;
use std::collections::BTreeMap;
use std::process::ExitCode;
use std::time::{Duration, Instant, SystemTime};

/// Counts by refusal, then by length or excess in steps of so many.
fn print(job: &str, tally: &Tally, refusals: &[usize], done: &str, step: u32) {
    let Tally {
        pairs,
        skipped,
        differences,
        ..
    } = tally;
    println!("{job}: {pairs} pairs, {skipped} skipped, {differences} differences");
    for &number in refusals {
        println!("  refused {number:<11} {:9}", tally.seen[number]);
    }
    let mut steps: BTreeMap<u32, u64> = BTreeMap::new();
    for (number, count) in &tally.done {
        *steps.entry(number / step).or_default() += count;
    }
    for (at, count) in steps {
        let (low, high) = (at * step, (at + 1) * step - 1);
        let numbers = if step == 1 {
            format!("{low}")
        } else {
            format!("{low} to {high}")
        };
        println!("  {done} {numbers:12} {count:9}");
    }
    for told in &tally.first {
        println!("  {told}");
    }
}

fn main() -> ExitCode {
    let mut given = std::env::args().skip(1);
    let minutes = given
        .next()
        .map_or(20.0, |text| text.parse().expect("minutes"));
    let clock = || {
        SystemTime::UNIX_EPOCH
            .elapsed()
            .map_or(0, |time| time.as_nanos() as u64)
    };
    let seed = given
        .next()
        .map_or_else(clock, |text| text.parse().expect("a seed"));
    println!("seed {seed}, {minutes} minutes");
    let end = Instant::now() + Duration::from_secs_f64(60.0 * minutes);
    let told = each_thread(|thread, _| {
        let mut random = Random::new(seed.wrapping_mul(1_000_151).wrapping_add(thread));
        let mut maps = Sides::new(&mut random);
        let mut loads = Sides::new(&mut random);
        let mut forwards = Sides::new(&mut random);
        let mut changes = Sides::new(&mut random);
        let mut marks = Sides::new(&mut random);
        let mut short = Sides::of(SHORT, &mut random);
        let mut texts = Tally::default();
        let mut benches = Tally::default();
        while Instant::now() < end {
            maps.random_maps(&mut random);
            loads.random_loads(&mut random);
            forwards.random_forwards(&mut random);
            changes.random_changes(&mut random);
            marks.random_mark(&mut random);
            match random.below(8) {
                0 => marks.reader_piece(&mut random),
                1 => marks.checks_piece(&mut random),
                2 => marks.luts_piece(&mut random, true),
                3 => marks.luts_piece(&mut random, false),
                _ => marks.random_mark(&mut random),
            }
            short.random_maps(&mut random);
            short.random_mark(&mut random);
            if random.below(50) == 0 {
                random_listing(&mut texts, &mut random);
                random_bench(&mut benches, &mut random);
            }
        }
        [
            maps.tally,
            loads.tally,
            forwards.tally,
            changes.tally,
            marks.tally,
            short.tally,
            texts,
            benches,
        ]
    });
    let mut all: [Tally; 8] = Default::default();
    for own in told {
        for (sum, tally) in all.iter_mut().zip(own) {
            sum.add(tally);
        }
    }
    let [maps, loads, forwards, changes, marks, shorts, texts, benches] = &all;
    let of_map: Vec<usize> = (1..=12).collect();
    let of_mark: Vec<usize> = [1].into_iter().chain(3..=11).chain(13..=18).collect();
    print("map", maps, &of_map, "length", 100);
    let of_load: Vec<usize> = (1..=12).chain([20]).collect();
    print("map with a loader", loads, &of_load, "length", 100);
    let of_forward: Vec<usize> = (1..=11).chain(20..=22).collect();
    print("forward map", forwards, &of_forward, "length", 100);
    print("change-over", changes, &of_forward, "length", 100);
    print("mark", marks, &of_mark, "excess", 1);
    let of_both: Vec<usize> = (1..=18).collect();
    print("short course", shorts, &of_both, "done", 100);
    print("listing", texts, &[], "", 1);
    let of_bench: Vec<usize> = [1].into_iter().chain(4..=11).chain([21]).collect();
    print("bench", benches, &of_bench, "steps", 10);
    println!("seed {seed}");
    ExitCode::from(u8::from(all.iter().any(|tally| tally.differences > 0)))
}
