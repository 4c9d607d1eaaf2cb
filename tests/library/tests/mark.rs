//! The library's mark against the second mapper's: answers and scratch, whole.

use library::compare::{random_calls, Sides, LIMITS};
use library::tally::{cases, on_threads, seed};
use second::damage::candidate;
use second::encode::encode;
use second::generate::{random_net, Shape};
use second::jobs::{LONG, SCRATCH_BYTES};
use second::Random;

#[test]
fn candidates_good_and_bad() {
    let all = cases();
    let tally = random_calls(LONG, all, 1_000_033, Sides::random_mark);
    let rare = |number: &usize| *number != 2 && *number != 12 && tally.seen[*number] <= 20;
    let rare: Vec<usize> = (0..19).filter(rare).collect();
    assert!(all < 50_000 || rare.is_empty(), "rare answers {rare:?}");
    tally.fail_on_differences();
}

#[test]
fn each_byte_changed_and_every_truncation() {
    let tally = on_threads(|thread, _| {
        let mut random = Random::new(seed().wrapping_mul(1_000_037).wrapping_add(thread));
        let mut sides = Sides::new(&mut random);
        for gates in 1..9 {
            let shape = Shape::any(&mut random, gates, 3);
            let net = random_net(&mut random, &shape);
            let Some(record) = candidate(&mut random, &net, 3, LIMITS) else {
                continue;
            };
            let net = encode(&net);
            let mut try_one = |record: &[u8]| {
                sides.mark(&mut random, &net, 3, record, SCRATCH_BYTES, None);
            };
            for length in 0..=record.len() {
                try_one(&record[..length]);
            }
            for place in 0..record.len() {
                for value in 0..=255 {
                    let mut changed = record.clone();
                    changed[place] = value;
                    try_one(&changed);
                }
            }
            let mut longer = record.clone();
            for more in [1, 1_000, 70_000] {
                longer.resize(record.len() + more, 0);
                try_one(&longer);
            }
        }
        sides.tally
    });
    tally.print();
    tally.fail_on_differences();
}
