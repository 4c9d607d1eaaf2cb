//! The examples of document 01 through the library, to the byte.

use kamfelu::{COVER_AREA, SCRATCH};
use library::nets::{and_line, largest_record, line, net, net_a, net_b, net_c, Read, AND};
use second::encode::encode;
use second::jobs::{COVER_BYTES, SCRATCH_BYTES};
use second::{Answer, Net};

/// A's listing as a record.
const RECORD_A: [u8; 16] = [2, 2, 2, 2, 0, 0, 1, 8, 4, 2, 2, 2, 4, 1, 0, 9];

/// The record, or the refusal's number. The areas must be left as document 01 says, and
/// the second mapper must answer the same.
fn map(net: &[u8], k: u32, target: u32) -> Result<Vec<u8>, u8> {
    let mut cover = vec![7; COVER_BYTES + 1];
    let mut scratch = vec![9; SCRATCH_BYTES + 1];
    let answer = kamfelu::map(net, k, target, &mut cover, &mut scratch);
    let kept = answer.unwrap_or(0);
    assert!(cover[kept..].iter().all(|&byte| byte == 7));
    let work = if matches!(answer, Err(1..=3)) { 9 } else { 0 };
    assert!(scratch[..SCRATCH_BYTES].iter().all(|&byte| byte == work));
    assert_eq!(scratch[SCRATCH_BYTES], 9);

    let mut other = vec![7; COVER_BYTES + 1];
    let expected = match second::map(net, k, target, &mut other, &mut scratch) {
        Answer::Done(length) => Ok(length as usize),
        Answer::Refused(number) => Err(number),
        Answer::GaveUp => panic!("too many cuts"),
    };
    assert_eq!(answer, expected);
    assert!(cover == other, "another record");
    answer.map(|length| cover[..length].to_vec())
}

fn map_net(net: &Net, k: u32, target: u32) -> Result<Vec<u8>, u8> {
    map(&encode(net), k, target)
}

#[test]
fn a_at_k_2() {
    assert_eq!(map(&net_a(), 2, 0), Ok(RECORD_A.to_vec()));
    assert_eq!(map(&net_a(), 2, 2), Ok(RECORD_A.to_vec()));
    assert_eq!(map(&net_a(), 2, 1), Err(12));
}

#[test]
fn a_at_k_3_has_one_lut() {
    let record = vec![1, 1, 4, 3, 4, 0, 1, 4, 1, 0, 0x87];
    assert_eq!(map(&net_a(), 3, 1), Ok(record.clone()));
    assert_eq!(map(&net_a(), 3, 0), Ok(record));
}

#[test]
fn b_moves_a_register() {
    let record = vec![1, 2, 3, 2, 0, 0, 1, 8, 4, 2, 64, 2, 3, 1, 8];
    assert_eq!(map(&net_b(1), 2, 1), Ok(record.clone()));
    assert_eq!(map(&net_b(1), 2, 0), Ok(record));
}

#[test]
fn b_at_k_3_is_one_lut() {
    assert_eq!(map(&net_b(1), 3, 1), Ok(vec![1, 1, 4, 3, 0, 0, 1, 2, 0x80]));
}

#[test]
fn b_without_the_register() {
    assert_eq!(map(&net_b(0), 2, 1), Err(12));
    let record = vec![2, 2, 3, 2, 0, 0, 1, 8, 4, 2, 0, 2, 3, 8];
    assert_eq!(map(&net_b(0), 2, 2), Ok(record));
}

#[test]
fn c_has_negative_lags() {
    for target in [1, 2] {
        let record = vec![target, 1, 2, 2, 64 + 3, 0, 1, 1, 0, 1, 0, 255, 8];
        assert_eq!(map(&net_c(), 2, u32::from(target)), Ok(record));
    }
}

/// Gates with the labels -2, 0, 2 and 3 at period 2, k 2; the lag of the last LUT.
#[test]
fn lags_at_period_2() {
    let lag = |net: &Net| {
        let record = map_net(net, 2, 2).expect("a record");
        let checked = second::read_net(&encode(net), 2).expect("a net");
        let cover = second::read_record(&checked, 2, &record).expect("a cover");
        let second::Outcome::Labels(labels) =
            second::least_labels(&checked, second::Mode::Plain, 2, 2)
        else {
            panic!("not reachable");
        };
        let last = cover.luts.last().expect("a LUT");
        (labels[last.root], last.lag)
    };
    assert_eq!(lag(&and_line(2, 2, 0)), (-2, -2));
    assert_eq!(lag(&and_line(2, 1, 0)), (0, -1));
    assert_eq!(lag(&and_line(2, 0, 0)), (2, 0));
    assert_eq!(lag(&and_line(3, 0, 1)), (3, 1));
}

#[test]
fn copies_and_leaves() {
    let equal = net(1, &[(&[(0, 0), (0, 0)], AND)], &[(1, 0)]);
    assert_eq!(map_net(&equal, 2, 0), Ok(vec![1, 1, 1, 1, 0, 0, 2]));
    let apart = net(1, &[(&[(0, 0), (0, 1)], AND)], &[(1, 0)]);
    assert_eq!(
        map_net(&apart, 2, 0),
        Ok(vec![1, 1, 1, 2, 2, 0, 0, 1, 0, 8])
    );
}

#[test]
fn k_6_and_7() {
    let pins: Vec<Read> = (0..6).map(|i| (i, 0)).collect();
    let wide = net(6, &[(&pins, 1 << 63)], &[(6, 0)]);
    let record = [&[1, 1, 6, 6, 0, 0, 1, 2, 3, 4, 5][..], &[0; 7], &[128]].concat();
    assert_eq!(map_net(&wide, 6, 0), Ok(record));
    assert_eq!(map_net(&wide, 5, 0), Err(7));
    for k in [0, 1, 7, 255, 256 + 6] {
        assert_eq!(map_net(&wide, k, 0), Err(1));
    }
}

#[test]
fn gates_32_and_33() {
    assert_eq!(map_net(&line(32, 0), 2, 0), Ok(vec![1, 1, 32, 1, 0, 0, 2]));
    assert_eq!(map_net(&line(33, 0), 2, 0), Err(5));
}

#[test]
fn counts_3_and_4() {
    let record = vec![1, 1, 32, 1, 65, 0, 96, 0, 160, 2];
    assert_eq!(map_net(&line(32, 3), 2, 0), Ok(record));
    assert_eq!(map_net(&line(1, 4), 2, 0), Err(6));
    assert!(map(&net_b(3), 2, 0).is_ok());
    assert_eq!(map(&net_b(4), 2, 0), Err(6));
}

#[test]
fn targets_32_and_33() {
    assert_eq!(map(&net_a(), 2, 32).map(|record| record[0]), Ok(32));
    assert_eq!(map(&net_a(), 2, 33), Err(2));
    assert_eq!(map(&net_a(), 7, 33), Err(1));
}

#[test]
fn areas_of_962_and_961_bytes() {
    assert_eq!((COVER_AREA, SCRATCH), (COVER_BYTES, SCRATCH_BYTES));
    let net = encode(&largest_record());
    let mut scratch = vec![9; SCRATCH_BYTES];
    let mut cover = vec![7; COVER_BYTES];
    assert_eq!(kamfelu::map(&net, 6, 0, &mut cover, &mut scratch), Ok(962));
    assert!(scratch.iter().all(|&byte| byte == 0));
    assert_eq!(map(&net, 6, 0), Ok(cover));
    for (area, work) in [(961, SCRATCH_BYTES), (962, SCRATCH_BYTES - 1), (0, 0)] {
        let mut cover = vec![7; area];
        let mut scratch = vec![9; work];
        let answer = kamfelu::map(&net, 6, 0, &mut cover, &mut scratch);
        assert_eq!(answer, Err(3));
        assert!(cover.iter().all(|&byte| byte == 7) && scratch.iter().all(|&byte| byte == 9));
    }
}

#[test]
fn mark_of_a_and_b() {
    let mark = |net: &[u8], k: u32, record: &[u8]| {
        let mut scratch = vec![9; SCRATCH_BYTES + 1];
        let answer = kamfelu::mark(net, k, record, &mut scratch);
        assert!(scratch[..SCRATCH_BYTES].iter().all(|&byte| byte == 0));
        assert_eq!(scratch[SCRATCH_BYTES], 9);
        answer
    };
    assert_eq!(mark(&net_a(), 3, &RECORD_A), Ok(1));
    assert_eq!(mark(&net_a(), 2, &RECORD_A), Ok(0));
    let record = |lag: u8| [1, 2, 3, 2, 0, 0, 1, 8, 4, 2, 64, 2, 3, lag, 8];
    let without = [1, 2, 3, 2, 0, 0, 1, 8, 4, 2, 0, 2, 3, 8];
    assert_eq!(mark(&net_b(1), 2, &without), Err(18));
    assert_eq!(mark(&net_b(1), 2, &record(1)), Ok(0));
    assert_eq!(mark(&net_b(1), 2, &record(2)), Err(17));
}
