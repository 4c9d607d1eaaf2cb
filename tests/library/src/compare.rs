//! The library against the second mapper: answers, cover areas, loader areas, contents areas and scratch, whole.

use crate::inputs::{
    deep, some_contents, some_forward_net, some_k, some_lengths, some_loader, some_net, some_pairs,
    some_section, some_target, HUGE,
};
use crate::nets::{of_family, FAMILIES};
use crate::tally::{on_threads, seed, Tally};
use second::damage::{candidate, damaged, damaged_net};
use second::encode::encode_with_holes;
use second::generate::{random_net, wild_net, Shape};
use second::jobs::{Course, COVER_BYTES, LONG, SCRATCH_BYTES, SHORT};
use second::loader::image;
use second::mark::{check_cover, is_forward};
use second::solve::unreachable;
use second::{
    contents_after, read_record, read_with_section, Answer, Areas, Job, Limits, Mode, Random,
};

/// Here the second mapper gives up.
pub const LIMITS: Limits = Limits {
    cuts: 10_000,
    steps: 200_000,
};

/// So many random calls of a course, made one after the other by `call`.
pub fn random_calls(
    course: Course,
    all: u64,
    salt: u64,
    call: fn(&mut Sides, &mut Random),
) -> Tally {
    let tally = on_threads(|thread, threads| {
        let mut random = Random::new(seed().wrapping_mul(salt).wrapping_add(thread));
        let mut sides = Sides::of(course, &mut random);
        while sides.tally.pairs < all / threads + 1 {
            call(&mut sides, &mut random);
        }
        sides.tally
    });
    tally.print();
    assert!(tally.pairs >= all);
    tally
}

/// Map of some nets by each of these calls: every k from 0 to 8 and the huge ones, with these targets and the
/// huge ones.
pub fn all_maps(course: Course, nets: &[Vec<u8>], targets: &[u32], calls: &[Call]) {
    let tally = on_threads(|thread, threads| {
        let mut random = Random::new(thread);
        let mut sides = Sides::of(course, &mut random);
        for net in nets.iter().skip(thread as usize).step_by(threads as usize) {
            for k in (0..=8).chain(HUGE) {
                for target in targets.iter().copied().chain(HUGE) {
                    for &call in calls {
                        let lengths = Lengths {
                            cover: COVER_BYTES + 1,
                            scratch: SCRATCH_BYTES + 1,
                            call,
                        };
                        sides.map(&mut random, net, k, target, lengths);
                    }
                }
            }
        }
        sides.tally
    });
    tally.print();
    tally.fail_on_differences();
}

/// Map of some nets with each of these lengths of cover area and scratch, by each of these calls, for each of these
/// k and targets.
pub fn all_lengths(
    nets: &[Vec<u8>],
    [covers, works]: [&[usize]; 2],
    calls: &[Call],
    asked: &[(u32, u32)],
) -> Tally {
    let tally = on_threads(|thread, threads| {
        let mut random = Random::new(thread);
        let mut sides = Sides::new(&mut random);
        for net in nets.iter().skip(thread as usize).step_by(threads as usize) {
            for &cover in covers {
                for &scratch in works {
                    for &call in calls {
                        let lengths = Lengths {
                            cover,
                            scratch,
                            call,
                        };
                        for &(k, target) in asked {
                            sides.map(&mut random, net, k, target, lengths);
                        }
                    }
                }
            }
        }
        sides.tally
    });
    tally.print();
    tally.fail_on_differences();
    tally
}

/// The library's calls of map, with the lengths of what each takes beside cover area and scratch.
#[derive(Clone, Copy, Debug)]
pub enum Call {
    Plain,
    Loader(usize),
    Forward {
        loader: usize,
        contents: usize,
    },
    ChangeOver {
        pairs: usize,
        loader: usize,
        contents: usize,
    },
}

impl Call {
    /// The second mapper's job.
    fn job(self, pairs: &[u8]) -> Job<'_> {
        match self {
            Call::Plain | Call::Loader(_) => Job::Plain,
            Call::Forward { .. } => Job::Forward,
            Call::ChangeOver { .. } => Job::ChangeOver(pairs),
        }
    }

    /// The lengths of loader area, contents area and pairs.
    fn lent(self) -> [usize; 3] {
        match self {
            Call::Plain => [0; 3],
            Call::Loader(loader) => [loader, 0, 0],
            Call::Forward { loader, contents } => [loader, contents, 0],
            Call::ChangeOver {
                pairs,
                loader,
                contents,
            } => [loader, contents, pairs],
        }
    }
}

/// A call of map, and the lengths of the areas.
#[derive(Clone, Copy, Debug)]
pub struct Lengths {
    pub cover: usize,
    pub scratch: usize,
    pub call: Call,
}

/// The areas of both mappers, filled with the same bytes before each call.
pub struct Sides {
    course: Course,
    noise: Vec<u8>,
    /// Of the library and of the second mapper.
    pub cover: [Vec<u8>; 2],
    pub scratch: [Vec<u8>; 2],
    pub loader: [Vec<u8>; 2],
    pub contents: [Vec<u8>; 2],
    /// Only read.
    pub pairs: [Vec<u8>; 2],
    pub tally: Tally,
}

impl Sides {
    pub fn new(random: &mut Random) -> Sides {
        Sides::of(LONG, random)
    }

    /// Map and mark of a course.
    pub fn of(course: Course, random: &mut Random) -> Sides {
        let areas = || [Vec::new(), Vec::new()];
        Sides {
            course,
            noise: (0..200_000).map(|_| random.byte()).collect(),
            cover: areas(),
            scratch: areas(),
            loader: areas(),
            contents: areas(),
            pairs: areas(),
            tally: Tally::default(),
        }
    }

    /// An area of both sides with some part of the noise.
    fn fill(area: &mut [Vec<u8>; 2], noise: &[u8], random: &mut Random, length: usize) {
        let at = random.below(100_000);
        for side in area {
            side.clear();
            side.extend_from_slice(&noise[at..at + length]);
        }
    }

    /// Map of one pair of net and target.
    pub fn map(&mut self, random: &mut Random, net: &[u8], k: u32, target: u32, lengths: Lengths) {
        let [loader, contents, pairs] = lengths.call.lent();
        for (area, length) in [
            (&mut self.cover, lengths.cover),
            (&mut self.scratch, lengths.scratch),
            (&mut self.loader, loader),
            (&mut self.contents, contents),
            (&mut self.pairs, pairs),
        ] {
            Sides::fill(area, &self.noise, random, length);
        }
        let course = self.course;
        let (job, areas) = self.second(lengths.call);
        let expected = second::map_within(course, job, LIMITS, net, k, target, areas);
        let found = self.found(net, k, target, lengths.call);
        self.tally.count(expected);
        let right = if expected == Answer::GaveUp {
            let record = self.cover[0].clone();
            let (job, areas) = self.second(lengths.call);
            fits(found, net, k, target, job, areas, &record)
        } else {
            let done = matches!(expected, Answer::Done(_));
            self.tally.deep += u64::from(done && target == 0 && self.cover[1][0] > 1);
            answer(found) == expected
        };
        let Sides {
            cover,
            scratch,
            loader,
            contents,
            pairs,
            tally,
            ..
        } = self;
        let given = pairs[1].clone();
        let areas = [cover, scratch, loader, contents, pairs];
        let same = right && areas.iter().all(|[own, other]| own == other);
        let told = || {
            let differs = |[a, b]: &[Vec<u8>; 2]| a.iter().zip(b).position(|(a, b)| a != b);
            let places = areas.each_ref().map(|area| differs(area));
            format!(
                "net {net:?} k {k} target {target} {lengths:?} pairs {given:?}: \
                 expected {expected:?}, found {found:?}, \
                 first other byte of cover, scratch, loader, contents, pairs {places:?}"
            )
        };
        tally.check(same, told);
    }

    /// The second mapper's job and areas.
    fn second(&mut self, call: Call) -> (Job<'_>, Areas<'_>) {
        let areas = Areas {
            cover: &mut self.cover[1],
            scratch: &mut self.scratch[1],
            loader: &mut self.loader[1],
            contents: &mut self.contents[1],
        };
        (call.job(&self.pairs[1]), areas)
    }

    /// The library's answer.
    fn found(&mut self, net: &[u8], k: u32, target: u32, call: Call) -> Result<usize, u8> {
        let (cover, scratch) = (&mut self.cover[0], &mut self.scratch[0]);
        let (loader, contents) = (&mut self.loader[0], &mut self.contents[0]);
        match (call, self.course) {
            (Call::Plain, SHORT) => kamfelu::short_map(net, k, target, cover, scratch),
            (Call::Plain, _) => kamfelu::map(net, k, target, cover, scratch),
            (Call::Loader(_), _) => kamfelu::map_loader(net, k, target, cover, scratch, loader),
            (Call::Forward { .. }, _) => {
                kamfelu::map_forward(net, k, target, cover, scratch, loader, contents)
            }
            (Call::ChangeOver { .. }, _) => {
                let pairs = &self.pairs[0];
                kamfelu::change_over(net, k, target, pairs, cover, scratch, loader, contents)
            }
        }
    }

    /// Mark of one record. The answer expected is given, for a scratch that is long enough,
    /// or asked of the second mapper.
    pub fn mark(
        &mut self,
        random: &mut Random,
        net: &[u8],
        k: u32,
        record: &[u8],
        length: usize,
        expected: Option<Answer>,
    ) {
        Sides::fill(&mut self.scratch, &self.noise, random, length);
        let [scratch, other] = &mut self.scratch;
        let expected = match expected {
            Some(expected) => {
                if !matches!(expected, Answer::Refused(1..=3)) {
                    other[..SCRATCH_BYTES].fill(0);
                }
                expected
            }
            None => second::mark_within(self.course, LIMITS, net, k, record, other),
        };
        self.tally.count(expected);
        if expected == Answer::GaveUp {
            return;
        }
        let found = answer(if self.course == SHORT {
            kamfelu::short_mark(net, k, record, scratch)
        } else {
            kamfelu::mark(net, k, record, scratch)
        });
        let told = || {
            format!(
                "net {net:?} k {k} record {record:?} scratch {length}: \
                 expected {expected:?}, found {found:?}"
            )
        };
        self.tally
            .check(found == expected && scratch == other, told);
    }

    /// Map of a random net at its least period and at some targets.
    pub fn random_maps(&mut self, random: &mut Random) {
        let net = some_net(random);
        self.some_maps(random, net, |_| Call::Plain);
    }

    /// The same with a loader area.
    pub fn random_loads(&mut self, random: &mut Random) {
        let net = some_net(random);
        self.some_maps(random, net, |random| Call::Loader(some_loader(random)));
    }

    /// The same in forward mode.
    pub fn random_forwards(&mut self, random: &mut Random) {
        let net = some_forward_net(random);
        self.some_maps(random, net, |random| Call::Forward {
            loader: some_loader(random),
            contents: some_contents(random),
        });
    }

    /// The same behind some input pairs.
    pub fn random_changes(&mut self, random: &mut Random) {
        let net = some_forward_net(random);
        self.some_maps(random, net, |random| Call::ChangeOver {
            pairs: some_pairs(random),
            loader: some_loader(random),
            contents: some_contents(random),
        });
    }

    fn some_maps(
        &mut self,
        random: &mut Random,
        (net, pins): (Vec<u8>, usize),
        call: fn(&mut Random) -> Call,
    ) {
        let k = some_k(random, pins);
        let lengths = Lengths {
            cover: COVER_BYTES,
            scratch: SCRATCH_BYTES,
            call: call(random),
        };
        self.map(random, &net, k, 0, lengths);
        // The record's first byte, the least period where there was one.
        let least = u32::from(self.cover[1][0] % 33);
        for _ in 0..random.within(1, 4) {
            let target = some_target(random, least);
            let (cover, scratch) = some_lengths(random);
            let call = call(random);
            let lengths = Lengths {
                cover,
                scratch,
                call,
            };
            self.map(random, &net, k, target, lengths);
        }
    }

    /// Mark of a random candidate, good or bad.
    pub fn random_mark(&mut self, random: &mut Random) {
        let pins = random.within(1, 6);
        let gates = random.pick(&[3, 6, 8, 12, 24]);
        let net = match random.below(10) {
            0 => of_family(random.below(FAMILIES.len()), random, gates, pins.max(2)),
            1 | 2 => {
                let shape = deep(random, gates, pins);
                random_net(random, &shape)
            }
            _ => {
                let shape = Shape::any(random, gates, pins);
                random_net(random, &shape)
            }
        };
        let mut k = random.within(pins.max(2), 6) as u32;
        let Some(mut record) = candidate(random, &net, k, LIMITS) else {
            self.tally.skipped += 1;
            return;
        };
        let mut bytes = encode_with_holes(&net, random);
        bytes = some_section(random, bytes);
        match random.below(20) {
            0 => bytes = damaged_net(random, &bytes),
            1 => record = damaged(random, &record),
            2 => k = some_k(random, pins),
            3 => bytes = some_net(random).0,
            4 => {
                let shape = Shape::any(random, gates, pins);
                bytes = encode_with_holes(&wild_net(random, &shape), random);
            }
            _ => {}
        }
        let length = match random.below(20) {
            0 => random.pick(&[0, SCRATCH_BYTES - 1]),
            _ => random.within(SCRATCH_BYTES, SCRATCH_BYTES + 1),
        };
        self.mark(random, &bytes, k, &record, length, None);
    }
}

/// The library's answer.
fn answer(found: Result<usize, u8>) -> Answer {
    match found {
        Ok(number) => Answer::Done(number as u32),
        Err(number) => Answer::Refused(number),
    }
}

/// What can be said of an answer without listing cuts. What its record asks for is written to the second
/// mapper's areas.
fn fits(
    found: Result<usize, u8>,
    net: &[u8],
    k: u32,
    target: u32,
    job: Job,
    areas: Areas,
    record: &[u8],
) -> bool {
    areas.scratch[..SCRATCH_BYTES].fill(0);
    let (net, section) = read_with_section(net, k).expect("a good net");
    let length = match found {
        Ok(length) => length,
        Err(number) => return number == unreachable(job.mode()) && target != 0,
    };
    let Ok(read) = read_record(&net, k, &record[..length]) else {
        return false;
    };
    areas.cover[..length].copy_from_slice(&record[..length]);
    if !areas.loader.is_empty() {
        let image = image(&read);
        areas.loader[..image.len()].copy_from_slice(&image);
    }
    let plain = job.mode() == Mode::Plain;
    let good = check_cover(&net, &read).is_ok() && (plain || is_forward(&net, &read));
    if good && !areas.contents.is_empty() {
        let first = contents_after(&net, &section.expect("a section"), &read, job.pairs());
        areas.contents[..first.len()].copy_from_slice(&first);
    }
    good && (target == 0 || read.period == target)
}
