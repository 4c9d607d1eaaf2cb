//! The second mapper against itself on random nets, records and candidates.

mod common;

use common::{map, mark};
use second::contents::CONTENTS_BYTES;
use second::damage::{candidate, damaged_net};
use second::encode::{encode, encode_with_holes, random_section, with_section};
use second::generate::{random_net, wild_net, Shape};
use second::jobs::{COVER_BYTES, LONG, SCRATCH_BYTES};
use second::loader::LOADER_BYTES;
use second::run::cover_runs_as_net;
use second::{
    check_net, parse_net, read_net, read_record, write_record, Answer, Areas, Job, Limits, Random,
};

#[test]
fn records_of_map_are_accepted_by_mark() {
    let mut random = Random::new(41);
    for round in 0..8000 {
        let k = random.within(2, 6);
        let most = if round % 20 == 0 { 24 } else { 10 };
        let shape = Shape::any(&mut random, most, k);
        let net = random_net(&mut random, &shape);
        let bytes = encode_with_holes(&net, &mut random);
        let k = k as u32;
        let record = map(&bytes, k, 0).unwrap();
        let least = u32::from(record[0]);
        assert_eq!(mark(&bytes, k, &record), Answer::Done(0));
        for target in 1..=(net.gates.len() as u32 + 1).min(32) {
            match map(&bytes, k, target) {
                Ok(record) => {
                    assert!(target >= least && u32::from(record[0]) == target);
                    assert_eq!(mark(&bytes, k, &record), Answer::Done(target - least));
                    let cover = read_record(&net, k, &record).unwrap();
                    assert_eq!(write_record(&cover), record);
                    if target <= least + 1 {
                        assert!(cover_runs_as_net(&net, &cover, 8, &mut random));
                    }
                }
                Err(answer) => {
                    assert_eq!(answer, Answer::Refused(12));
                    assert!(target < least);
                }
            }
        }
    }
}

#[test]
fn net_records_read_back() {
    let mut random = Random::new(42);
    for _ in 0..5000 {
        let shape = Shape::any(&mut random, 32, 6);
        let net = random_net(&mut random, &shape);
        assert_eq!(read_net(&encode(&net), 6).as_ref(), Ok(&net));
        assert_eq!(read_net(&encode_with_holes(&net, &mut random), 6), Ok(net));
    }
}

#[test]
fn nets_that_read_anything_fail_9_to_11() {
    let mut random = Random::new(43);
    let mut seen = [0; 12];
    for _ in 0..20_000 {
        let shape = Shape::any(&mut random, 6, 3);
        let net = wild_net(&mut random, &shape);
        assert_eq!(parse_net(&encode(&net), 3).as_ref(), Ok(&net));
        seen[usize::from(check_net(&net).err().unwrap_or(0))] += 1;
    }
    assert!([0, 9, 10, 11].iter().all(|&n| seen[n] > 100), "{seen:?}");
}

#[test]
fn damaged_nets_meet_every_refusal() {
    let mut random = Random::new(44);
    let mut seen = [0; 13];
    for _ in 0..40_000 {
        let k = random.within(2, 6);
        let shape = Shape::any(&mut random, 6, k);
        let net = random_net(&mut random, &shape);
        let mut bytes = encode_with_holes(&net, &mut random);
        if random.chance(90) {
            bytes = damaged_net(&mut random, &bytes);
        }
        let k = (k - usize::from(random.chance(20))).max(2) as u32;
        let target = random.below(4) as u32;
        let answer = map(&bytes, k, target);
        match answer {
            Ok(record) => {
                seen[0] += 1;
                assert!(matches!(mark(&bytes, k, &record), Answer::Done(_)));
            }
            Err(Answer::Refused(number)) => {
                seen[usize::from(number)] += 1;
                assert!((4..=12).contains(&number));
                if number < 12 {
                    assert_eq!(mark(&bytes, k, &[]), Answer::Refused(number));
                }
            }
            Err(other) => panic!("{other:?}"),
        }
    }
    assert!(
        seen[0] > 100 && seen[4..].iter().all(|&n| n > 20),
        "{seen:?}"
    );
}

#[test]
fn candidates_meet_every_refusal() {
    let mut random = Random::new(45);
    let mut seen = [0; 19];
    for _ in 0..30_000 {
        let k = random.within(2, 6);
        let shape = Shape::any(&mut random, 8, k.min(4));
        let net = random_net(&mut random, &shape);
        let k = k as u32;
        let record = candidate(&mut random, &net, k, Limits::default()).unwrap();
        match mark(&encode(&net), k, &record) {
            Answer::Done(excess) => {
                seen[0] += 1;
                assert!(excess < 32);
                let cover = read_record(&net, k, &record).unwrap();
                assert!(cover_runs_as_net(&net, &cover, 8, &mut random));
            }
            Answer::Refused(number) => seen[usize::from(number)] += 1,
            Answer::GaveUp => panic!("too many cuts"),
        }
    }
    assert!(
        seen[0] > 5000 && seen[13..].iter().all(|&n| n > 100),
        "{seen:?}"
    );
}

#[test]
fn giving_up_is_no_refusal() {
    let mut random = Random::new(46);
    let limits = Limits { cuts: 3, steps: 20 };
    let mut gave_up = 0;
    for _ in 0..500 {
        let shape = Shape::any(&mut random, 8, 4);
        let net = random_net(&mut random, &shape);
        let bytes = with_section(&encode(&net), &random_section(net.nodes(), &mut random));
        let mut cover = vec![7; COVER_BYTES];
        let mut scratch = vec![9; SCRATCH_BYTES];
        let mut loader = vec![5; LOADER_BYTES];
        let mut contents = vec![3; CONTENTS_BYTES];
        let [changed, forward, answer] =
            [Job::ChangeOver(&[3; 9]), Job::Forward, Job::Plain].map(|job| {
                let areas = Areas {
                    cover: &mut cover,
                    scratch: &mut scratch,
                    loader: &mut loader,
                    contents: &mut contents,
                };
                second::map_within(LONG, job, limits, &bytes, 4, 0, areas)
            });
        assert_eq!(forward, changed);
        assert_eq!(forward == Answer::GaveUp, answer == Answer::GaveUp);
        let record = map(&bytes, 4, 0).unwrap();
        if answer == Answer::GaveUp {
            gave_up += 1;
            assert!(cover.iter().all(|&b| b == 7) && scratch.iter().all(|&b| b == 9));
            assert!(loader.iter().all(|&b| b == 5) && contents.iter().all(|&b| b == 3));
            assert_eq!(second::listing_within(limits, 4, 0, &bytes), "gave up\n");
        } else {
            assert_eq!(answer, Answer::Done(record.len() as u32));
        }
        let marked = second::mark_within(LONG, limits, &bytes, 4, &record, &mut scratch);
        assert_eq!(marked == Answer::GaveUp, answer == Answer::GaveUp);
    }
    assert!(gave_up > 50, "{gave_up}");
}

#[test]
fn a_seed_gives_the_same_net() {
    let make = |seed| {
        let mut random = Random::new(seed);
        let shape = Shape::any(&mut random, 10, 4);
        encode_with_holes(&random_net(&mut random, &shape), &mut random)
    };
    assert_eq!(make(1), make(1));
    assert_ne!(make(1), make(2));
}
