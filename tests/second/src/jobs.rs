//! The jobs map, plain and forward, change-over and mark with all refusals, and what they do to the areas.

use crate::contents::{contents_after, CONTENTS_BYTES};
use crate::cover::{read_record, write_record, Cover};
use crate::cuts::Limits;
use crate::labels::Mode;
use crate::loader::{image, LOADER_BYTES};
use crate::mark::check_cover;
use crate::net::{read_with_section, Net, Section};
use crate::solve::{least_period_within, solve, Stop};

/// The least lengths of the two areas.
pub const COVER_BYTES: usize = 962;
pub const SCRATCH_BYTES: usize = 65_536;

/// The largest target.
pub const MOST_TARGET: u32 = 32;

/// A course of the examination: the most gates of its nets, and its largest k.
#[derive(Clone, Copy, Debug, PartialEq, Eq)]
pub struct Course {
    pub gates: u8,
    pub k: u32,
}

pub const LONG: Course = Course { gates: 32, k: 6 };
pub const SHORT: Course = Course { gates: 8, k: 4 };

#[derive(Clone, Copy, Debug, PartialEq, Eq)]
pub enum Answer {
    /// Map: the record's length. Mark: the excess.
    Done(u32),
    Refused(u8),
    /// Too many cuts; not one of the proved mapper's answers. The areas are kept.
    GaveUp,
}

impl From<Stop> for Answer {
    fn from(stop: Stop) -> Answer {
        match stop {
            Stop::Refused(number) => Answer::Refused(number),
            Stop::GaveUp => Answer::GaveUp,
        }
    }
}

/// The jobs that write a cover.
#[derive(Clone, Copy, Debug, PartialEq, Eq)]
pub enum Job<'a> {
    Plain,
    /// Map to a forward cover (document 02, E6), the first contents of its registers to the contents area, if one is
    /// lent.
    Forward,
    /// The same, but the contents are those of the step behind these input pairs, on which the net first runs (E7).
    ChangeOver(&'a [u8]),
}

impl<'a> Job<'a> {
    pub fn mode(self) -> Mode {
        match self {
            Job::Plain => Mode::Plain,
            Job::Forward | Job::ChangeOver(_) => Mode::Forward,
        }
    }

    /// The input pairs in front of the step whose contents are wanted.
    pub fn pairs(self) -> &'a [u8] {
        match self {
            Job::Plain | Job::Forward => &[],
            Job::ChangeOver(pairs) => pairs,
        }
    }
}

/// The areas lent to map. A loader area or contents area of length 0 counts as none; plain mode has no
/// contents, and a change-over needs them.
pub struct Areas<'a> {
    pub cover: &'a mut [u8],
    pub scratch: &'a mut [u8],
    pub loader: &'a mut [u8],
    pub contents: &'a mut [u8],
}

/// The cover of a net for k and a target is written to the cover area.
pub fn map(net: &[u8], k: u32, target: u32, cover: &mut [u8], scratch: &mut [u8]) -> Answer {
    map_loader(net, k, target, cover, scratch, &mut [])
}

/// Map, and the cover's image is written to the loader area if one is lent.
pub fn map_loader(
    net: &[u8],
    k: u32,
    target: u32,
    cover: &mut [u8],
    scratch: &mut [u8],
    loader: &mut [u8],
) -> Answer {
    let areas = Areas {
        cover,
        scratch,
        loader,
        contents: &mut [],
    };
    map_within(LONG, Job::Plain, Limits::default(), net, k, target, areas)
}

/// A job of a course, with limits of one's own: the cover to the cover area, its image to the loader area and the
/// contents to the contents area, if these are lent.
pub fn map_within(
    course: Course,
    job: Job,
    limits: Limits,
    net: &[u8],
    k: u32,
    target: u32,
    areas: Areas,
) -> Answer {
    if !(2..=course.k).contains(&k) {
        return Answer::Refused(1);
    }
    if target > MOST_TARGET {
        return Answer::Refused(2);
    }
    let contents = match job.mode() {
        Mode::Plain => &mut [],
        Mode::Forward => areas.contents,
    };
    let short = |area: &[u8], least: usize| (1..least).contains(&area.len());
    let missing = matches!(job, Job::ChangeOver(_)) && contents.is_empty();
    if areas.cover.len() < COVER_BYTES
        || areas.scratch.len() < SCRATCH_BYTES
        || short(contents, CONTENTS_BYTES)
        || missing
    {
        return Answer::Refused(3);
    }
    let wanted = !contents.is_empty();
    let mapped = if short(areas.loader, LOADER_BYTES) {
        Err(Stop::Refused(20))
    } else {
        map_cover(course, job, limits, net, k, target, wanted)
    };
    let answer = match mapped {
        Ok((cover, first)) => {
            contents[..first.len()].copy_from_slice(&first);
            Answer::Done(write(&cover, areas.cover, areas.loader))
        }
        Err(stop) => Answer::from(stop),
    };
    if answer != Answer::GaveUp {
        areas.scratch[..SCRATCH_BYTES].fill(0);
    }
    answer
}

/// The record to the cover area and, if a loader area is lent, the image to that; the
/// record's length.
fn write(cover: &Cover, area: &mut [u8], loader: &mut [u8]) -> u32 {
    let record = write_record(cover);
    area[..record.len()].copy_from_slice(&record);
    if !loader.is_empty() {
        let image = image(cover);
        loader[..image.len()].copy_from_slice(&image);
    }
    record.len() as u32
}

/// A net of a course. Where its second byte says too many gates the walk ends there at the latest,
/// and its first byte can only be refused with 5 too.
fn net_of(course: Course, net: &[u8], k: u32) -> Result<(Net, Option<Section>), Stop> {
    if net.get(1).is_some_and(|&gates| gates > course.gates) {
        return Err(Stop::Refused(5));
    }
    read_with_section(net, k).map_err(Stop::Refused)
}

/// The cover and, if they are wanted, the contents of its registers.
fn map_cover(
    course: Course,
    job: Job,
    limits: Limits,
    net: &[u8],
    k: u32,
    target: u32,
    contents: bool,
) -> Result<(Cover, Vec<u8>), Stop> {
    let (net, section) = net_of(course, net, k)?;
    if contents && section.is_none() {
        return Err(Stop::Refused(21));
    }
    let (cover, _) = solve(&net, job.mode(), k, target, limits)?;
    let first = match section.filter(|_| contents) {
        Some(section) => contents_after(&net, &section, &cover, job.pairs()),
        None => Vec::new(),
    };
    Ok((cover, first))
}

/// The excess of a candidate's record: its period less the least period.
pub fn mark(net: &[u8], k: u32, record: &[u8], scratch: &mut [u8]) -> Answer {
    mark_within(LONG, Limits::default(), net, k, record, scratch)
}

/// The same of a course, with limits of one's own.
pub fn mark_within(
    course: Course,
    limits: Limits,
    net: &[u8],
    k: u32,
    record: &[u8],
    scratch: &mut [u8],
) -> Answer {
    if !(2..=course.k).contains(&k) {
        return Answer::Refused(1);
    }
    if scratch.len() < SCRATCH_BYTES {
        return Answer::Refused(3);
    }
    let answer = match mark_excess(course, limits, net, k, record) {
        Ok(excess) => Answer::Done(excess),
        Err(stop) => Answer::from(stop),
    };
    if answer != Answer::GaveUp {
        scratch[..SCRATCH_BYTES].fill(0);
    }
    answer
}

fn mark_excess(
    course: Course,
    limits: Limits,
    net: &[u8],
    k: u32,
    record: &[u8],
) -> Result<u32, Stop> {
    let (net, _) = net_of(course, net, k)?;
    let cover = read_record(&net, k, record).map_err(Stop::Refused)?;
    check_cover(&net, &cover).map_err(Stop::Refused)?;
    let least = least_period_within(&net, Mode::Plain, k, limits).ok_or(Stop::GaveUp)?;
    Ok(cover
        .period
        .checked_sub(least)
        .expect("a cover below the least period"))
}
