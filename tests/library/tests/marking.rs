//! The program `marking` over standard input and output, against the second mapper's text.

use library::batch::case;
use library::compare::LIMITS;
use library::inputs::{some_net, some_section};
use library::nets::{net_a, net_b, net_c, with_sections};
use library::programs::printed;
use second::damage::{candidate, damaged};
use second::generate::{random_net, Shape};
use second::{programs, Random};

/// A's listing as a record.
const RECORD_A: [u8; 16] = [2, 2, 2, 2, 0, 0, 1, 8, 4, 2, 2, 2, 4, 1, 0, 9];
/// B's LUTs without lags.
const RECORD_B: [u8; 14] = [1, 2, 3, 2, 0, 0, 1, 8, 4, 2, 0, 2, 3, 8];

fn same(given: &[u8]) -> String {
    let text = printed("marking", given);
    let expected = String::from_utf8(programs::mark(given)).expect("text");
    assert_eq!(text, expected, "{given:02x?}");
    text
}

fn marked(k: u8, net: &[u8], record: &[u8]) -> String {
    same(&[&case(k, net)[..], record].concat())
}

#[test]
fn examples() {
    assert_eq!(marked(3, &net_a(), &RECORD_A), "excess 1\n");
    assert_eq!(marked(2, &net_a(), &RECORD_A), "excess 0\n");
    let lag = |lag: u8| [1, 2, 3, 2, 0, 0, 1, 8, 4, 2, 64, 2, 3, lag, 8];
    assert_eq!(marked(2, &net_b(1), &RECORD_B), "refused 18\n");
    assert_eq!(marked(2, &net_b(1), &lag(1)), "excess 0\n");
    assert_eq!(marked(2, &net_b(1), &lag(2)), "refused 17\n");
    for k in 0..9 {
        let mut nets = vec![net_a(), net_b(0), net_b(1), net_c(), Vec::new()];
        nets.extend(with_sections());
        for net in nets {
            marked(k, &net, &RECORD_A);
            marked(k, &net, &RECORD_B);
        }
    }
}

#[test]
fn cut_off() {
    assert_eq!(same(&[]), "refused 1\n");
    assert_eq!(same(&[2]), "refused 4\n");
    assert_eq!(same(&[2, 20]), "refused 4\n");
    assert_eq!(same(&[2, 20, 0]), "refused 4\n");
    let whole = [&case(3, &net_a())[..], &RECORD_A].concat();
    for end in 0..whole.len() {
        same(&whole[..end]);
    }
    // The net is shorter than its length, and the record is then empty.
    for length in [[21, 0], [20, 1], [255, 255]] {
        let given = [&[2], &length[..], &net_a()].concat();
        assert_eq!(same(&given), "refused 13\n");
    }
    // It is longer than its length.
    assert_eq!(same(&[&[2, 19, 0], &net_a()[..]].concat()), "refused 4\n");
    assert_eq!(same(&[whole, vec![0; 100_000]].concat()), "refused 13\n");
}

#[test]
fn random_pairs() {
    let mut random = Random::new(11);
    for turn in 0..500 {
        let gates = random.within(1, 10);
        let shape = Shape::any(&mut random, gates, 4);
        let net = random_net(&mut random, &shape);
        let k = random.within(4, 6) as u8;
        let Some(record) = candidate(&mut random, &net, k.into(), LIMITS) else {
            continue;
        };
        let bytes = match turn % 10 {
            0 => some_net(&mut random).0,
            _ => some_section(&mut random, second::encode::encode(&net)),
        };
        let mut given = [&case(k, &bytes)[..], &record].concat();
        if turn % 10 == 1 {
            given = damaged(&mut random, &given);
        }
        // A case where the second mapper gives up is of no use here.
        if programs::mark(&given) != second::listing::GAVE_UP.as_bytes() {
            same(&given);
        }
    }
}
