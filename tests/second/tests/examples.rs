//! The examples of document 01.

mod common;

use common::{map, mark, net_a, net_b, net_bytes, net_c, AND};
use second::jobs::{COVER_BYTES, SCRATCH_BYTES};
use second::{lag_of, listing, Answer};

const LISTING_A: &str = "period 2 luts 2 registers 1\n\
    lut 2 label 1 lag 0 table 8 leaves 0:0 1:0\n\
    lut 4 label 2 lag 0 table 9 leaves 2:0 4:1\n";

/// A's listing as a record.
const RECORD_A: [u8; 16] = [2, 2, 2, 2, 0, 0, 1, 8, 4, 2, 2, 2, 4, 1, 0, 9];

#[test]
fn listing_of_a() {
    assert_eq!(listing(2, 0, &net_a()), LISTING_A);
    assert_eq!(map(&net_a(), 2, 0), Ok(RECORD_A.to_vec()));
    assert_eq!(listing(2, 2, &net_a()), LISTING_A);
}

#[test]
fn a_at_k_2_cannot_reach_1() {
    assert_eq!(listing(2, 1, &net_a()), "refused 12\n");
    assert_eq!(map(&net_a(), 2, 1), Err(Answer::Refused(12)));
}

#[test]
fn a_at_k_3_has_one_lut() {
    let text = "period 1 luts 1 registers 1\n\
        lut 4 label 1 lag 0 table 87 leaves 0:0 1:0 4:1\n";
    assert_eq!(listing(3, 1, &net_a()), text);
    assert_eq!(listing(3, 0, &net_a()), text);
}

#[test]
fn a_at_k_3_has_a_tie() {
    let net = second::read_net(&net_a(), 3).unwrap();
    let copy = |node, d| second::NodeCopy { node, d };
    let chosen = [copy(0, 0), copy(1, 0), copy(4, 1)];
    let larger = [copy(0, 0), copy(1, 0), copy(3, 1)];
    let inner = second::cone_of(&net, 4, &chosen).unwrap();
    let outer = second::cone_of(&net, 4, &larger).unwrap();
    assert!(inner.len() < outer.len() && inner.iter().all(|copy| outer.contains(copy)));
    let labels = vec![0, 0, 1, 1, 1];
    assert_eq!(
        second::least_labels(&net, second::Mode::Plain, 3, 1),
        second::Outcome::Labels(labels)
    );
}

#[test]
fn b_moves_a_register() {
    let text = "period 1 luts 2 registers 2\n\
        lut 3 label 1 lag 0 table 8 leaves 0:0 1:0\n\
        lut 4 label 2 lag 1 table 8 leaves 2:0 3:0\n";
    assert_eq!(listing(2, 1, &net_b(1)), text);
    assert_eq!(listing(2, 0, &net_b(1)), text);
}

/// Document 02, E2: readers of one node share a chain, and inputs are nodes too.
#[test]
fn c_shares_registers() {
    let first = |outputs: &[(usize, u32)]| {
        let net = net_bytes(2, &[(&[(0, 1), (1, 1)], AND)], outputs);
        let text = listing(2, 1, &net);
        text.lines().next().unwrap().to_string()
    };
    // the LUT of gate 2 has lag -1, its leaves 0 registers
    assert_eq!(first(&[(2, 0)]), "period 1 luts 1 registers 1");
    assert_eq!(first(&[(2, 0), (0, 2)]), "period 1 luts 1 registers 3");
    assert_eq!(first(&[(2, 0), (2, 1)]), "period 1 luts 1 registers 2");
    assert_eq!(first(&[(2, 0), (2, 0)]), "period 1 luts 1 registers 1");
    assert_eq!(
        first(&[(2, 0), (2, 1), (0, 2), (0, 1)]),
        "period 1 luts 1 registers 4"
    );
}

#[test]
fn b_at_k_3_is_one_lut() {
    let text = "period 1 luts 1 registers 1\n\
        lut 4 label 1 lag 0 table 80 leaves 0:0 1:0 2:0\n";
    assert_eq!(listing(3, 1, &net_b(1)), text);
}

#[test]
fn b_without_the_register() {
    assert_eq!(listing(2, 1, &net_b(0)), "refused 12\n");
    assert!(listing(2, 2, &net_b(0)).starts_with("period 2 luts 2 registers 0\n"));
}

#[test]
fn c_has_negative_lags() {
    let text = "period 1 luts 1 registers 1\n\
        lut 2 label 0 lag -1 table 8 leaves 0:1 1:1\n";
    assert_eq!(listing(2, 1, &net_c()), text);
    let text = "period 2 luts 1 registers 1\n\
        lut 2 label -1 lag -1 table 8 leaves 0:1 1:1\n";
    assert_eq!(listing(2, 2, &net_c()), text);
}

#[test]
fn lags_at_period_2() {
    let lags: Vec<i64> = [-2, 0, 2, 3]
        .iter()
        .map(|&label| lag_of(label, 2))
        .collect();
    assert_eq!(lags, [-2, -1, 0, 1]);
}

#[test]
fn equal_pins_are_one_leaf() {
    let net = net_bytes(1, &[(&[(0, 0), (0, 0)], AND)], &[(1, 0)]);
    let text = "period 1 luts 1 registers 0\n\
        lut 1 label 1 lag 0 table 2 leaves 0:0\n";
    assert_eq!(listing(2, 0, &net), text);
}

#[test]
fn copies_with_other_counts_are_two_leaves() {
    let net = net_bytes(1, &[(&[(0, 0), (0, 1)], AND)], &[(1, 0)]);
    let text = "period 1 luts 1 registers 1\n\
        lut 1 label 1 lag 0 table 8 leaves 0:0 0:1\n";
    assert_eq!(listing(2, 0, &net), text);
}

#[test]
fn mark_of_a() {
    assert_eq!(mark(&net_a(), 3, &RECORD_A), Answer::Done(1));
    assert_eq!(mark(&net_a(), 2, &RECORD_A), Answer::Done(0));
}

#[test]
fn mark_of_b() {
    let record = |lag: &[u8]| {
        let map = if lag.is_empty() { 0 } else { 64 };
        let mut bytes = vec![1, 2, 3, 2, 0, 0, 1, 8, 4, 2, map, 2, 3];
        bytes.extend_from_slice(lag);
        bytes.push(8);
        bytes
    };
    assert_eq!(mark(&net_b(1), 2, &record(&[])), Answer::Refused(18));
    assert_eq!(mark(&net_b(1), 2, &record(&[1])), Answer::Done(0));
    assert_eq!(mark(&net_b(1), 2, &record(&[2])), Answer::Refused(17));
    assert_eq!(mark(&net_b(1), 2, &record(&[255])), Answer::Refused(17));
}

#[test]
fn k_6_and_7() {
    let pins: Vec<(usize, u32)> = (0..6).map(|i| (i, 0)).collect();
    let net = net_bytes(6, &[(&pins, 1 << 63)], &[(6, 0)]);
    let text = "period 1 luts 1 registers 0\n\
        lut 6 label 1 lag 0 table 8000000000000000 leaves 0:0 1:0 2:0 3:0 4:0 5:0\n";
    assert_eq!(listing(6, 0, &net), text);
    assert_eq!(listing(5, 0, &net), "refused 7\n");
    for k in [0, 1, 7, 255] {
        assert_eq!(listing(k, 0, &net), "refused 1\n");
        assert_eq!(map(&net, k, 0), Err(Answer::Refused(1)));
        assert_eq!(mark(&net, k, &[]), Answer::Refused(1));
    }
}

/// A line of gates, each with one pin of so many registers.
fn line(gates: usize, count: u32) -> Vec<u8> {
    let pins: Vec<[(usize, u32); 1]> = (0..gates).map(|i| [(i, count)]).collect();
    let gates: Vec<common::GateText> = pins.iter().map(|pin| (&pin[..], 2)).collect();
    net_bytes(1, &gates, &[(gates.len(), 0)])
}

#[test]
fn gates_32_and_33() {
    let text = "period 1 luts 1 registers 0\n\
        lut 32 label 1 lag 0 table 2 leaves 0:0\n";
    assert_eq!(listing(2, 0, &line(32, 0)), text);
    assert_eq!(listing(2, 0, &line(33, 0)), "refused 5\n");
}

#[test]
fn counts_3_and_4() {
    let text = "period 1 luts 1 registers 96\n\
        lut 32 label -95 lag -96 table 2 leaves 0:96\n";
    // 96 + (-96) registers at the leaf, 0 - (-96) at the output.
    assert_eq!(listing(2, 0, &line(32, 3)), text);
    assert_eq!(
        map(&line(32, 3), 2, 0),
        Ok(vec![1, 1, 32, 1, 65, 0, 96, 0, 160, 2])
    );
    assert_eq!(listing(2, 0, &line(1, 4)), "refused 6\n");
    assert_eq!(listing(2, 0, &net_b(3)).lines().count(), 3);
    assert_eq!(listing(2, 0, &net_b(4)), "refused 6\n");
}

#[test]
fn targets_32_and_33() {
    assert!(listing(2, 32, &net_a()).starts_with("period 32 luts 2 "));
    assert_eq!(listing(2, 33, &net_a()), "refused 2\n");
    assert_eq!(map(&net_a(), 2, 33), Err(Answer::Refused(2)));
    assert_eq!(map(&net_a(), 7, 33), Err(Answer::Refused(1)));
}

#[test]
fn areas_of_962_and_961_bytes() {
    let mut cover = vec![7; COVER_BYTES];
    let mut scratch = vec![9; SCRATCH_BYTES + 3];
    let answer = second::map(&net_a(), 2, 0, &mut cover, &mut scratch);
    assert_eq!(answer, Answer::Done(16));
    assert_eq!(cover[..16], RECORD_A);
    assert!(cover[16..].iter().all(|&byte| byte == 7));
    assert!(scratch[..SCRATCH_BYTES].iter().all(|&byte| byte == 0));
    assert_eq!(scratch[SCRATCH_BYTES..], [9, 9, 9]);
    for (area, work) in [(961, SCRATCH_BYTES), (962, SCRATCH_BYTES - 1), (0, 0)] {
        let mut cover = vec![7; area];
        let mut scratch = vec![9; work];
        let answer = second::map(&net_a(), 2, 0, &mut cover, &mut scratch);
        assert_eq!(answer, Answer::Refused(3));
        assert!(cover.iter().all(|&byte| byte == 7) && scratch.iter().all(|&byte| byte == 9));
    }
}

#[test]
fn refusals_keep_the_cover_area_and_clear_the_scratch() {
    for (net, target, number) in [(vec![], 0, 4), (net_a(), 1, 12)] {
        let mut cover = vec![7; COVER_BYTES + 1];
        let mut scratch = vec![9; SCRATCH_BYTES + 1];
        let answer = second::map(&net, 2, target, &mut cover, &mut scratch);
        assert_eq!(answer, Answer::Refused(number));
        assert!(cover.iter().all(|&byte| byte == 7));
        assert!(scratch[..SCRATCH_BYTES].iter().all(|&byte| byte == 0));
        assert_eq!(scratch[SCRATCH_BYTES], 9);
    }
    for (k, number) in [(1, 1), (7, 1)] {
        let mut cover = vec![7; COVER_BYTES];
        let mut scratch = vec![9; SCRATCH_BYTES];
        let answer = second::map(&net_a(), k, 0, &mut cover, &mut scratch);
        assert_eq!(answer, Answer::Refused(number));
        assert!(cover.iter().all(|&byte| byte == 7) && scratch.iter().all(|&byte| byte == 9));
    }
}

#[test]
fn scratch_of_mark() {
    for (k, length, number, kept) in [(1, SCRATCH_BYTES, 1, true), (2, SCRATCH_BYTES - 1, 3, true)]
    {
        let mut scratch = vec![9; length];
        let answer = second::mark(&net_a(), k, &RECORD_A, &mut scratch);
        assert_eq!(answer, Answer::Refused(number));
        assert_eq!(scratch.iter().all(|&byte| byte == 9), kept);
    }
    for (record, answer) in [(&RECORD_A[..], Answer::Done(0)), (&[], Answer::Refused(13))] {
        let mut scratch = vec![9; SCRATCH_BYTES + 1];
        assert_eq!(second::mark(&net_a(), 2, record, &mut scratch), answer);
        assert!(scratch[..SCRATCH_BYTES].iter().all(|&byte| byte == 0));
        assert_eq!(scratch[SCRATCH_BYTES], 9);
    }
}

#[test]
fn a_record_of_962_bytes() {
    // Gate 16+i reads six input copies; gate 32+i five of them and gate 16+i.
    let mut pins: Vec<Vec<(usize, u32)>> = Vec::new();
    for i in 0..16 {
        pins.push((0..6).map(|j| ((i + j) % 16, 1)).collect());
    }
    for i in 0..16 {
        let mut own: Vec<(usize, u32)> = (0..5).map(|j| ((i + j + 7) % 16, 1)).collect();
        own.push((16 + i, 1));
        pins.push(own);
    }
    let gates: Vec<common::GateText> = pins.iter().map(|pins| (&pins[..], 1 << 63)).collect();
    let outputs: Vec<(usize, u32)> = (0..16).map(|i| (32 + i, 0)).collect();
    let net = net_bytes(16, &gates, &outputs);
    let record = map(&net, 6, 0).unwrap();
    assert_eq!(record.len(), 962);
    assert_eq!(mark(&net, 6, &record), Answer::Done(0));
}
