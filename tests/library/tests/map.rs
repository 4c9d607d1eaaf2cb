//! The library's map against the second mapper's: answers, cover areas and scratch, whole.

use library::compare::{all_lengths, all_maps, random_calls, Call, Sides};
use library::nets::{hand_made, largest_record, net_a, real};
use library::tally::cases;
use second::encode::encode;
use second::jobs::LONG;

#[test]
fn random_and_damaged_nets() {
    let all = cases();
    let tally = random_calls(LONG, all, 1_000_003, Sides::random_maps);
    assert!(
        all < 100_000 || tally.seen[..=12].iter().all(|&n| n > 50),
        "an answer is rare"
    );
    tally.fail_on_differences();
}

/// Every k from 0 to 8 with every target from 0 to 40 and the huge ones.
#[test]
fn hand_made_nets_with_all_k_and_targets() {
    let targets: Vec<u32> = (0..=40).collect();
    all_maps(LONG, &hand_made(), &targets, &[Call::Plain]);
}

/// The nets of real designs, with the small targets and the largest.
#[test]
fn real_nets() {
    all_maps(LONG, &real(), &[0, 1, 2, 3, 4, 32], &[Call::Plain]);
}

/// All lengths around the limits, for a net that is mapped and some that are refused.
#[test]
fn areas_around_the_limits() {
    let nets = [net_a(), encode(&largest_record()), Vec::new(), vec![17]];
    let covers = [0, 1, 961, 962, 963, 65_536];
    let works = [0, 1, 65_535, 65_536, 65_537, 100_000];
    let asked = [(2, 0), (6, 0), (2, 1), (1, 0), (2, 33), (7, 33)];
    all_lengths(&nets, [&covers, &works], &[Call::Plain], &asked);
}
