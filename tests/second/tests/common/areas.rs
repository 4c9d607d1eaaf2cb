//! Calls of forward map and of the change-over, and what they leave in the areas.

use super::{net_b, net_bytes, SAME};
use second::contents::CONTENTS_BYTES;
use second::encode::with_section;
use second::jobs::{COVER_BYTES, LONG, SCRATCH_BYTES};
use second::{map_within, read_net, read_record, Answer, Areas, Cover, Job, Limits};

/// A call with areas full of 7, 9, 5 and 3, each so long: the answer and the areas.
#[derive(PartialEq)]
pub struct Call {
    pub answer: Answer,
    pub cover: Vec<u8>,
    pub scratch: Vec<u8>,
    pub loader: Vec<u8>,
    pub contents: Vec<u8>,
}

pub fn call(job: Job, net: &[u8], k: u32, target: u32, lengths: [usize; 4]) -> Call {
    let [mut cover, mut scratch, mut loader, mut contents] =
        [(0, 7), (1, 9), (2, 5), (3, 3)].map(|(area, byte)| vec![byte; lengths[area]]);
    let areas = Areas {
        cover: &mut cover,
        scratch: &mut scratch,
        loader: &mut loader,
        contents: &mut contents,
    };
    let answer = map_within(LONG, job, Limits::default(), net, k, target, areas);
    Call {
        answer,
        cover,
        scratch,
        loader,
        contents,
    }
}

pub fn all(area: &[u8], byte: u8) -> bool {
    area.iter().all(|&other| other == byte)
}

/// The least lengths of cover area and scratch, and lengths of the others.
pub fn least(loader: usize, contents: usize) -> [usize; 4] {
    [COVER_BYTES, SCRATCH_BYTES, loader, contents]
}

impl Call {
    /// The refusal; the areas are kept, but for the scratch.
    pub fn refused(&self) -> u8 {
        let Answer::Refused(number) = self.answer else {
            panic!("{:?}", self.answer);
        };
        assert!(all(&self.cover, 7) && all(&self.loader, 5) && all(&self.contents, 3));
        if number <= 3 {
            assert!(all(&self.scratch, 9));
        } else {
            assert!(
                all(&self.scratch[..SCRATCH_BYTES], 0) && all(&self.scratch[SCRATCH_BYTES..], 9)
            );
        }
        number
    }
}

/// Nets refused with 4 to 11, then B, which has no forward cover for target 1; each without a section.
pub fn refused_nets() -> Vec<(Vec<u8>, u8)> {
    let loop_of_one = net_bytes(1, &[(&[(1, 0)], SAME)], &[(1, 0)]);
    let from_nowhere = net_bytes(1, &[(&[(1, 1)], SAME)], &[(1, 0)]);
    let to_nowhere = net_bytes(1, &[(&[(0, 0)], SAME)], &[(0, 0)]);
    vec![
        (vec![], 4),
        (vec![17], 5),
        (vec![1, 1, 1, 0], 6),
        (vec![1, 1, 1, 7], 7),
        ([net_b(1), vec![0]].concat(), 8),
        (loop_of_one, 9),
        (from_nowhere, 10),
        (to_nowhere, 11),
        (net_b(1), 22),
    ]
}

/// The contents that a job writes for a record of a net without its section, and the cover.
pub fn contents_of(job: Job, net: &[u8], section: &[u8], k: u32, target: u32) -> (Vec<u8>, Cover) {
    let lengths = least(0, CONTENTS_BYTES);
    let told = call(job, &with_section(net, section), k, target, lengths);
    let Answer::Done(length) = told.answer else {
        panic!("{:?}", told.answer);
    };
    let net = read_net(net, k).expect("a net");
    let cover = read_record(&net, k, &told.cover[..length as usize]).expect("a record");
    let connections = cover.connections(&net).expect("LUTs");
    let registers: i64 = connections.iter().map(|(_, registers)| registers).sum();
    assert!(all(&told.contents[registers as usize..], 3));
    (told.contents[..registers as usize].to_vec(), cover)
}
