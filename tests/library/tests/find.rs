//! The library's root lookup against the second implementation, which reads whole records.

use kamfelu::find_root;
use library::compare::LIMITS;
use second::damage::{candidate, damaged};
use second::generate::{random_net, Shape};
use second::Random;

/// The numbers around which an answer may change: each byte of the record and the numbers beside it, and the ends.
fn gates(record: &[u8]) -> Vec<u16> {
    let beside = |&byte: &u8| u16::from(byte).saturating_sub(1)..=u16::from(byte) + 1;
    let mut all: Vec<u16> = record.iter().flat_map(beside).collect();
    all.extend([0, 255, 256, 257, 511, 32_767, 32_768, 65_534, 65_535]);
    all.sort_unstable();
    all.dedup();
    all
}

fn same(record: &[u8], g: u16) -> Result<Option<usize>, u8> {
    let answer = second::find_root(record, g);
    assert_eq!(find_root(record, g), answer, "gate {g} in {record:?}");
    answer
}

/// Records of random nets: what a candidate hands in, right or not.
fn records(random: &mut Random, count: usize, gates: usize) -> Vec<Vec<u8>> {
    let mut all = Vec::new();
    while all.len() < count {
        let (k, size) = (2 + random.below(5) as u32, 1 + random.below(gates));
        let shape = Shape::any(random, size, k as usize);
        let net = random_net(random, &shape);
        all.extend(candidate(random, &net, k, LIMITS));
    }
    all
}

/// Every number of 16 bits as the gate.
#[test]
fn every_gate() {
    let mut random = Random::new(21);
    for record in records(&mut random, 40, 32) {
        for g in 0..=u16::MAX {
            let _ = same(&record, g);
        }
    }
}

#[test]
fn each_byte_changed_and_every_truncation() {
    let mut random = Random::new(22);
    for record in records(&mut random, 12, 8) {
        for length in 0..=record.len() {
            for g in gates(&record) {
                let _ = same(&record[..length], g);
            }
        }
        for place in 0..record.len() {
            for value in 0..=255 {
                let mut changed = record.clone();
                changed[place] = value;
                for g in gates(&record[..=place]) {
                    let _ = same(&changed, g);
                }
                let _ = same(&changed, u16::from(value));
            }
        }
    }
}

/// Bytes behind the last LUT change nothing, however many there are.
#[test]
fn bytes_over() {
    let mut random = Random::new(23);
    for mut record in records(&mut random, 50, 32) {
        let before: Vec<_> = gates(&record)
            .into_iter()
            .map(|g| (g, same(&record, g)))
            .collect();
        let length = record.len();
        for more in [1, 1_000, 70_000] {
            record.resize(length + more, 7);
            for (g, answer) in &before {
                if *answer != Err(19) {
                    assert_eq!(same(&record, *g), *answer);
                }
            }
        }
    }
}

/// Damaged records, and bytes that are no record at all; each answer comes up.
#[test]
fn random_records() {
    let mut random = Random::new(24);
    let mut seen = [0; 3];
    for record in records(&mut random, 300, 32) {
        for _ in 0..20 {
            let mut bytes = damaged(&mut random, &record);
            if random.below(4) == 0 {
                bytes = (0..random.below(200))
                    .map(|_| random.below(256) as u8)
                    .collect();
                // Some of them with a right front.
                for (place, most) in [(0, 32), (1, 3)] {
                    if let Some(byte) = bytes.get_mut(place) {
                        *byte = 1 + random.below(most) as u8;
                    }
                }
            }
            for g in gates(&bytes) {
                seen[match same(&bytes, g) {
                    Ok(Some(_)) => 0,
                    Ok(None) => 1,
                    Err(_) => 2,
                }] += 1;
            }
        }
    }
    assert!(seen.iter().all(|&count| count > 1_000), "{seen:?}");
}

/// An offset is at least 2 and stands at the gate's number.
#[test]
fn offsets() {
    let mut random = Random::new(25);
    for record in records(&mut random, 200, 32) {
        for g in 0..=255 {
            if let Ok(Some(at)) = same(&record, g) {
                assert!(at >= 2 && u16::from(record[at]) == g);
            }
        }
    }
    assert_eq!(find_root(&[], 0), Err(19));
}
