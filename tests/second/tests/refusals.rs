//! Every refusal of the net record and of the candidate's record, and their order.

mod common;

use common::{map, mark, net_a, net_b, net_bytes, AND};
use second::{parse_net, read_net, Answer};

fn number(bytes: &[u8], k: u32) -> u8 {
    read_net(bytes, k).err().unwrap_or(0)
}

#[test]
fn every_early_end_of_a_is_4() {
    let bytes = net_a();
    for length in 0..bytes.len() {
        assert_eq!(number(&bytes[..length], 2), 4);
    }
    assert_eq!(number(&bytes, 2), 0);
}

#[test]
fn bytes_over_are_8() {
    let mut bytes = net_a();
    bytes.push(0);
    assert_eq!(number(&bytes, 2), 8);
}

#[test]
fn numbers_are_tested_as_read() {
    assert_eq!(number(&[17], 2), 5);
    assert_eq!(number(&[0], 2), 5);
    assert_eq!(number(&[1], 2), 4);
    assert_eq!(number(&[16, 33], 2), 5);
    assert_eq!(number(&[16, 0], 2), 5);
    assert_eq!(number(&[16, 32, 17], 2), 5);
    assert_eq!(number(&[16, 32, 0], 2), 5);
    assert_eq!(number(&[16, 32, 16], 2), 4);
}

#[test]
fn pin_maps() {
    for map in [0, 64, 128, 65, 255] {
        assert_eq!(number(&[1, 1, 1, map], 6), 6);
    }
    // 7 is told before the register map is read.
    assert_eq!(number(&[1, 1, 1, 7], 2), 7);
    assert_eq!(number(&[1, 1, 1, 7, 255], 2), 7);
    assert_eq!(number(&[1, 1, 1, 63], 5), 7);
    assert_eq!(number(&[1, 1, 1, 63], 6), 4);
    // 6 comes before 7 at one pin map.
    assert_eq!(number(&[1, 1, 1, 71], 2), 6);
    // Pins count, not different leaves.
    let equal = net_bytes(1, &[(&[(0, 0), (0, 0), (0, 0)], 128)], &[(1, 0)]);
    assert_eq!(number(&equal, 2), 7);
    assert_eq!(number(&equal, 3), 0);
}

#[test]
fn register_maps() {
    for map in [2, 4, 64, 128, 3] {
        assert_eq!(number(&[1, 1, 1, 1, map], 6), 6);
    }
    assert_eq!(number(&[1, 1, 1, 0b101, 0b10], 6), 6);
    assert_eq!(number(&[1, 1, 1, 0b101, 0b100], 6), 4);
}

#[test]
fn sources_counts_and_tables() {
    assert_eq!(number(&[1, 1, 1, 1, 0, 2], 2), 6);
    assert_eq!(number(&[1, 1, 1, 1, 0, 1], 2), 4);
    assert_eq!(number(&[1, 1, 1, 1, 1, 0, 0], 2), 6);
    assert_eq!(number(&[1, 1, 1, 1, 1, 0, 4], 2), 6);
    assert_eq!(number(&[1, 1, 1, 1, 1, 0, 3], 2), 4);
    assert_eq!(number(&[1, 1, 1, 1, 0, 0, 4], 2), 6);
    assert_eq!(number(&[1, 1, 1, 1, 0, 0, 3], 2), 4);
    assert_eq!(number(&[1, 1, 1, 3, 0, 0, 0, 16], 2), 6);
    assert_eq!(number(&[1, 1, 1, 3, 0, 0, 0, 15], 2), 4);
    assert_eq!(number(&[1, 1, 1, 7, 0, 0, 0, 0, 255, 0, 1], 3), 0);
    assert_eq!(number(&[1, 1, 1, 15, 0, 0, 0, 0, 0, 255, 255, 0, 1], 4), 0);
}

#[test]
fn all_sources_come_before_the_counts() {
    // Two pins with registers: sources 0 and 1, then the counts 2 and 3.
    let net = parse_net(&[2, 1, 1, 0b1001, 0b1001, 0, 1, 2, 3, 8, 0, 2], 2).unwrap();
    let pins = &net.gates[0].pins;
    assert_eq!((pins[0].source, pins[0].count), (0, 2));
    assert_eq!((pins[1].source, pins[1].count), (1, 3));
    // A hole between the pins; the second alone has a register.
    let net = parse_net(&[2, 1, 1, 0b100010, 0b100000, 0, 1, 1, 2, 0, 2], 2).unwrap();
    let pins = &net.gates[0].pins;
    assert_eq!(
        (pins[0].count, pins[1].count, net.gates[0].table),
        (0, 1, 2)
    );
}

#[test]
fn outputs() {
    let gate = [2, 1, 1, 1, 0, 0, 2];
    let with = |output: &[u8]| number(&[&gate[..], output].concat(), 2);
    assert_eq!(with(&[2]), 6);
    assert_eq!(with(&[255]), 6);
    assert_eq!(with(&[0, 3]), 6);
    assert_eq!(with(&[0, 2]), 0);
    assert_eq!(with(&[1, 2]), 4);
    assert_eq!(with(&[1, 2, 0]), 6);
    assert_eq!(with(&[1, 2, 4]), 6);
    assert_eq!(with(&[1, 2, 3]), 0);
    assert_eq!(with(&[0, 2, 0]), 8);
    assert_eq!(with(&[0, 0]), 11);
}

#[test]
fn the_whole_net_is_checked_9_then_10_then_11() {
    // A loop of its own that leads to no output counts for 9.
    let good = [(0, 0)];
    let twin = net_bytes(1, &[(&good, 2), (&[(2, 0)], 2)], &[(1, 0)]);
    assert_eq!(number(&twin, 2), 9);
    let slow = net_bytes(1, &[(&good, 2), (&[(2, 1)], 2)], &[(1, 0)]);
    assert_eq!(number(&slow, 2), 10);
    let dead = net_bytes(1, &[(&good, 2), (&[(2, 1), (0, 0)], 8)], &[(1, 0)]);
    assert_eq!(number(&dead, 2), 11);
    let fine = net_bytes(1, &[(&good, 2), (&[(2, 1), (0, 0)], 8)], &[(1, 0), (2, 0)]);
    assert_eq!(number(&fine, 2), 0);
    // 10 over the whole net before 11: gate 1 leads nowhere, gate 2 is not reached.
    let both = net_bytes(1, &[(&good, 2), (&[(2, 1)], 2)], &[(2, 0)]);
    assert_eq!(number(&both, 2), 10);
    // 8 before 9.
    let mut over = twin.clone();
    over.push(0);
    assert_eq!(number(&over, 2), 8);
    // A loop through two gates.
    let pair = net_bytes(1, &[(&[(2, 0), (0, 0)], AND), (&[(1, 0)], 2)], &[(1, 0)]);
    assert_eq!(number(&pair, 2), 9);
    let held = net_bytes(1, &[(&[(2, 0), (0, 0)], AND), (&[(1, 1)], 2)], &[(1, 0)]);
    assert_eq!(number(&held, 2), 0);
}

#[test]
fn map_and_mark_share_the_refusals_of_the_net() {
    for (bytes, number) in [(vec![17], 5), (vec![], 4), (vec![1, 1, 1, 7], 7)] {
        assert_eq!(map(&bytes, 2, 0), Err(Answer::Refused(number)));
        assert_eq!(mark(&bytes, 2, &[]), Answer::Refused(number));
    }
}

/// A's record with some bytes replaced.
fn changed(places: &[(usize, u8)]) -> Vec<u8> {
    let mut record = vec![2, 2, 2, 2, 0, 0, 1, 8, 4, 2, 2, 2, 4, 1, 0, 9];
    for &(at, byte) in places {
        record[at] = byte;
    }
    record
}

#[test]
fn the_layout_of_a_record() {
    let refused = |record: &[u8]| assert_eq!(mark(&net_a(), 2, record), Answer::Refused(13));
    let whole = changed(&[]);
    assert_eq!(mark(&net_a(), 2, &whole), Answer::Done(0));
    for length in 0..whole.len() {
        refused(&whole[..length]);
    }
    refused(&[&whole[..], &[0]].concat());
    for period in [0, 33, 255] {
        refused(&changed(&[(0, period)]));
    }
    assert_eq!(mark(&net_a(), 2, &changed(&[(0, 32)])), Answer::Done(30));
    for count in [0, 1, 3, 33] {
        refused(&changed(&[(1, count)]));
    }
    // Roots: an input, no node, twice the same, falling.
    for root in [0, 1, 5, 4, 255] {
        refused(&changed(&[(2, root)]));
    }
    refused(&changed(&[(8, 2)]));
    // Leaf counts.
    for count in [0, 3, 7] {
        refused(&changed(&[(3, count)]));
    }
    // Map bits without a leaf.
    for map in [4, 8, 16, 32, 128] {
        refused(&changed(&[(4, map)]));
    }
    // Leaves: equal, falling, no node.
    refused(&changed(&[(6, 0)]));
    refused(&changed(&[(5, 1), (6, 0)]));
    refused(&changed(&[(6, 5)]));
    // A stored d of 0 and a stored lag of 0.
    refused(&changed(&[(13, 0)]));
    refused(&[2, 2, 2, 2, 64, 0, 1, 0, 8, 4, 2, 2, 2, 4, 1, 0, 9]);
    // Spare table bits.
    refused(&changed(&[(7, 24)]));
}

#[test]
fn leaves_rise_by_node_then_by_d() {
    let net = net_bytes(1, &[(&[(0, 1), (0, 2)], AND)], &[(1, 0)]);
    assert_eq!(
        mark(&net, 2, &[1, 1, 1, 2, 3, 0, 0, 1, 0, 2, 0, 8]),
        Answer::Done(0)
    );
    assert_eq!(
        mark(&net, 2, &[1, 1, 1, 2, 3, 0, 0, 2, 0, 1, 0, 8]),
        Answer::Refused(13)
    );
    assert_eq!(
        mark(&net, 2, &[1, 1, 1, 2, 3, 0, 0, 1, 0, 1, 0, 8]),
        Answer::Refused(13)
    );
    assert_eq!(
        mark(&net, 2, &[1, 1, 1, 2, 3, 0, 0, 1, 0, 2, 0, 2]),
        Answer::Refused(15)
    );
}

#[test]
fn leaf_counts_go_to_the_k_of_the_call() {
    let record = [1, 1, 4, 3, 0, 0, 1, 2, 128];
    assert_eq!(mark(&net_b(0), 3, &record), Answer::Done(0));
    assert_eq!(mark(&net_b(0), 2, &record), Answer::Refused(13));
}

#[test]
fn leaves_that_are_no_cut() {
    // The largest stored d.
    assert_eq!(
        mark(&net_a(), 2, &changed(&[(13, 255), (14, 255)])),
        Answer::Refused(14)
    );
    // The root's own copy.
    let net = net_bytes(1, &[(&[(0, 0), (1, 1)], AND)], &[(1, 0)]);
    assert_eq!(
        mark(&net, 2, &[1, 1, 1, 2, 2, 0, 1, 1, 0, 8]),
        Answer::Done(0)
    );
    assert_eq!(
        mark(&net, 2, &[1, 1, 1, 2, 0, 0, 1, 8]),
        Answer::Refused(14)
    );
    // A walk that meets an input that is no leaf, and one without an end.
    assert_eq!(
        mark(&net, 2, &[1, 1, 1, 2, 2, 0, 1, 2, 0, 8]),
        Answer::Refused(14)
    );
    assert_eq!(mark(&net, 2, &[1, 1, 1, 1, 0, 0, 2]), Answer::Refused(14));
    assert_eq!(
        mark(&net, 2, &[1, 1, 1, 1, 1, 1, 1, 0, 2]),
        Answer::Refused(14)
    );
    // A leaf that is never touched.
    let wide = net_bytes(2, &[(&[(0, 0)], 2)], &[(2, 0)]);
    assert_eq!(
        mark(&wide, 2, &[1, 1, 2, 2, 0, 0, 1, 10]),
        Answer::Refused(14)
    );
    assert_eq!(mark(&wide, 2, &[1, 1, 2, 1, 0, 0, 2]), Answer::Done(0));
}

#[test]
fn luts_that_nothing_reads() {
    // B at k 3: the LUT of gate 4 reads inputs alone, that of gate 3 is not read.
    let record = |table: u8, lag: u8| [1, 2, 3, 2, 64, 0, 1, lag, table, 4, 3, 0, 0, 1, 2, 128];
    assert_eq!(mark(&net_b(0), 3, &record(8, 1)), Answer::Done(0));
    assert_eq!(mark(&net_b(0), 3, &record(9, 1)), Answer::Refused(15));
    assert_eq!(mark(&net_b(0), 3, &record(8, 255)), Answer::Refused(17));
}

#[test]
fn each_check_of_a_record_is_over_the_whole_record() {
    // 13 at the end before 14 at the start.
    let record = changed(&[(6, 2), (15, 16)]);
    assert_eq!(mark(&net_a(), 2, &record), Answer::Refused(13));
    // 14 in the second LUT before 15 in the first.
    assert_eq!(
        mark(&net_a(), 2, &changed(&[(7, 9), (13, 2)])),
        Answer::Refused(14)
    );
    assert_eq!(mark(&net_a(), 2, &changed(&[(7, 9)])), Answer::Refused(15));
    // 16 at a leaf and at an output, after 15.
    let last = |table: u8| [2, 1, 4, 2, 2, 2, 4, 1, 0, table];
    assert_eq!(mark(&net_a(), 2, &last(9)), Answer::Refused(16));
    assert_eq!(mark(&net_a(), 2, &last(8)), Answer::Refused(15));
    assert_eq!(
        mark(&net_a(), 2, &[2, 1, 2, 2, 0, 0, 1, 8]),
        Answer::Refused(16)
    );
    // 18 with period 1.
    assert_eq!(mark(&net_a(), 2, &changed(&[(0, 1)])), Answer::Refused(18));
}

#[test]
fn outputs_that_read_inputs() {
    // The output of input 0 through 2 registers breaks nothing and counts 2.
    let net = net_bytes(1, &[(&[(0, 0)], 2)], &[(0, 2), (1, 0)]);
    let text = "period 1 luts 1 registers 2\nlut 1 label 1 lag 0 table 2 leaves 0:0\n";
    assert_eq!(second::listing(2, 0, &net), text);
    assert_eq!(mark(&net, 2, &[1, 1, 1, 1, 0, 0, 2]), Answer::Done(0));
    assert_eq!(
        mark(&net, 2, &[1, 1, 1, 1, 64, 0, 1, 2]),
        Answer::Refused(17)
    );
}
