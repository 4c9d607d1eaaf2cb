//! Covers enumerated outright against labels: for nets of at most three gates.

mod common;

use common::covers::{all_small_nets, count_covers, Tally};
use common::tiny_net;
use second::{Mode, Random};

#[test]
fn targets_met_by_covers_are_those_reached_by_labels() {
    let mut random = Random::new(31);
    let mut tally = Tally::default();
    for _ in 0..12_000 {
        let (net, k) = tiny_net(&mut random);
        tally.compare(&net, Mode::Plain, k);
    }
    assert!(tally.met > 10_000 && tally.unmet > 1000, "{tally:?}");
}

#[test]
fn all_small_nets_of_two_and_three_gates() {
    all_small_nets(Mode::Plain);
}

#[test]
fn no_cover_of_the_marker_is_below_the_least_period() {
    let mut random = Random::new(32);
    let (mut nets, mut good) = (0, 0);
    for _ in 0..3000 {
        let (net, k) = tiny_net(&mut random);
        if let Some(covers) = count_covers(&net, Mode::Plain, k) {
            nets += 1;
            good += covers;
        }
    }
    assert!(nets > 1000 && good > 20_000, "{nets} {good}");
}
