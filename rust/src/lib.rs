//! Kamfelu's proved jobs, called through their static library: [`map`] and [`mark`] for LUT covers
//! with moved registers, [`map_loader`] for a cover and its tables as a chip's loader takes them,
//! [`map_forward`] for a forward cover and what its registers hold at first, [`change_over`] for a
//! board that takes over from a running unit, [`connections`] for the registers of each connection,
//! [`short_map`] and [`short_mark`] for the short course, [`find_root`] for a stored cover,
//! [`class`] for three-input tables, [`align`] for two captures of one unit.
//!
//! `make library` in the repository writes `target/staticlib/libkamfelu.a`, which the build script
//! links (x86-64 Linux). A project of your own names this folder:
//!
//! ```toml
//! [dependencies]
//! kamfelu = { path = "../kamfelu/rust" }
//! ```
//!
//! What holds for all functions:
//!
//! - `Err` has the number of a refusal. README.md of the repository lists them, "Refusals".
//! - Nothing is assumed of the contents of any argument. docs/FORMATS.md explains net records and
//!   cover records.
//! - A net record has at most 803 bytes. It may end with a section, the nodes' values before step 0,
//!   from which the bench program and [`change_over`] start and the first contents of [`map_forward`]
//!   come; all other answers and areas are then those for the net without it.
//! - A call takes less than 256 KiB of the calling thread's stack.
//!   See [`STACK`].
//! - Nothing is kept between calls; threads may call at the same time.

/// The least length of a cover area, in bytes: no cover record is longer.
pub const COVER_AREA: usize = 962;

/// The least length of a scratch, in bytes.
pub const SCRATCH: usize = 65_536;

/// The least length of a loader area that is not empty, in bytes: no image is longer.
pub const LOADER_AREA: usize = 256;

/// The least length of a contents area that is not empty, in bytes: no forward cover has more
/// registers.
pub const CONTENTS_AREA: usize = 20_592;

/// More than the stack that a call takes, in bytes. A thread may have so little:
///
/// ```
/// let thread = std::thread::Builder::new().stack_size(kamfelu::STACK);
/// let class = thread.spawn(|| kamfelu::class(232)).unwrap();
/// assert_eq!(class.join().unwrap(), 23);
/// ```
pub const STACK: usize = 256 << 10;

mod contents;

pub use contents::{connections, Connection, Reader};

type Map = unsafe extern "C" fn(*const u8, usize, u32, u32, *mut u8, usize, *mut u8, usize) -> i64;
type Mark = unsafe extern "C" fn(*const u8, usize, u32, *const u8, usize, *mut u8, usize) -> i64;

extern "C" {
    fn kamfelu_map(
        net: *const u8,
        net_len: usize,
        k: u32,
        target: u32,
        cover: *mut u8,
        cover_len: usize,
        scratch: *mut u8,
        scratch_len: usize,
    ) -> i64;

    fn kamfelu_map_loader(
        net: *const u8,
        net_len: usize,
        k: u32,
        target: u32,
        cover: *mut u8,
        cover_len: usize,
        scratch: *mut u8,
        scratch_len: usize,
        loader: *mut u8,
        loader_len: usize,
    ) -> i64;

    fn kamfelu_map_forward(
        net: *const u8,
        net_len: usize,
        k: u32,
        target: u32,
        cover: *mut u8,
        cover_len: usize,
        scratch: *mut u8,
        scratch_len: usize,
        loader: *mut u8,
        loader_len: usize,
        contents: *mut u8,
        contents_len: usize,
    ) -> i64;

    fn kamfelu_change_over(
        net: *const u8,
        net_len: usize,
        k: u32,
        target: u32,
        pairs: *const u8,
        pairs_len: usize,
        cover: *mut u8,
        cover_len: usize,
        scratch: *mut u8,
        scratch_len: usize,
        loader: *mut u8,
        loader_len: usize,
        contents: *mut u8,
        contents_len: usize,
    ) -> i64;

    fn kamfelu_mark(
        net: *const u8,
        net_len: usize,
        k: u32,
        record: *const u8,
        record_len: usize,
        scratch: *mut u8,
        scratch_len: usize,
    ) -> i64;

    fn kamfelu_find_root(record: *const u8, record_len: usize, g: u16) -> i64;

    fn kamfelu_short_map(
        net: *const u8,
        net_len: usize,
        k: u32,
        target: u32,
        cover: *mut u8,
        cover_len: usize,
        scratch: *mut u8,
        scratch_len: usize,
    ) -> i64;

    fn kamfelu_short_mark(
        net: *const u8,
        net_len: usize,
        k: u32,
        record: *const u8,
        record_len: usize,
        scratch: *mut u8,
        scratch_len: usize,
    ) -> i64;

    fn kamfelu_class(table: u8) -> u8;

    fn kamfelu_align(
        first: *const u16,
        first_len: usize,
        second: *const u16,
        second_len: usize,
    ) -> i64;
}

// Map and mark by one of the library's functions, which take the same in both courses.
fn map_by(
    job: Map,
    net: &[u8],
    k: u32,
    target: u32,
    cover: &mut [u8],
    scratch: &mut [u8],
) -> Result<usize, u8> {
    // SAFETY: each pointer goes with its slice's length, and the slices are apart.
    told(unsafe {
        job(
            net.as_ptr(),
            net.len(),
            k,
            target,
            cover.as_mut_ptr(),
            cover.len(),
            scratch.as_mut_ptr(),
            scratch.len(),
        )
    })
}

fn mark_by(job: Mark, net: &[u8], k: u32, record: &[u8], scratch: &mut [u8]) -> Result<usize, u8> {
    // SAFETY: each pointer goes with its slice's length, and the slices are apart.
    told(unsafe {
        job(
            net.as_ptr(),
            net.len(),
            k,
            record.as_ptr(),
            record.len(),
            scratch.as_mut_ptr(),
            scratch.len(),
        )
    })
}

/// A cover of a net for LUTs with k inputs that meets the target.
///
/// - `net`: a net record.
/// - `k`: 2 to 6.
/// - `target`: the period to meet, 1 to 32, or 0 for the least.
/// - `cover`: the cover area, at least [`COVER_AREA`] bytes.
/// - `scratch`: at least [`SCRATCH`] bytes, whatever they are.
///
/// `Ok` has the length of the cover record, which then stands in front of the cover area; its first
/// byte is the period. Bytes behind it are kept.
///
/// `Err` has the number of the refusal: 1 for k, 2 for the target, 3 for an area that is too short,
/// 4 to 8 for the net's bytes, 9 for a loop of gates without a register, 10 for a gate that no
/// input reaches, 11 for one that leads to no output, 12 where no cover meets the target. The cover
/// area is then as it was.
///
/// After 1 to 3 the scratch is as it was; after every other outcome its first [`SCRATCH`] bytes are
/// 0 and the rest is kept.
///
/// ```
/// use kamfelu::{map, COVER_AREA, SCRATCH};
///
/// let net = [2, 3, 1, 3, 0, 0, 1, 8, 3, 2, 2, 4, 1, 6, 1, 0, 3, 1, 0, 4]; // net A
/// let (mut cover, mut scratch) = ([0; COVER_AREA], vec![0; SCRATCH]);
/// assert_eq!(map(&net, 2, 0, &mut cover, &mut scratch), Ok(16));
/// assert_eq!(cover[..16], [2, 2, 2, 2, 0, 0, 1, 8, 4, 2, 2, 2, 4, 1, 0, 9]);
/// assert_eq!(map(&net, 2, 1, &mut cover, &mut scratch), Err(12)); // no cover has period 1
/// ```
pub fn map(
    net: &[u8],
    k: u32,
    target: u32,
    cover: &mut [u8],
    scratch: &mut [u8],
) -> Result<usize, u8> {
    map_by(kamfelu_map, net, k, target, cover, scratch)
}

/// [`map`], and an image of the cover's tables for the chip's loader, which takes 64 bits for each
/// LUT.
///
/// - `net`, `k`, `target`, `cover`, `scratch`: as for [`map`].
/// - `loader`: the loader area, at least [`LOADER_AREA`] bytes. Where it is empty none is lent, and
///   the call is [`map`].
///
/// `Ok` has the length of the cover record, as for [`map`]. The image then stands in front of the
/// loader area, if one is lent: eight bytes for each LUT, in the record's order, the first byte
/// lowest; the record's second byte is the number of LUTs. A LUT's 64 bits are its table, repeated
/// until they are full: what stands on inputs that it does not use changes nothing. Bytes behind the
/// image are kept.
///
/// `Err` has the number of the refusal: 20 for a loader area that is too short, told after 3 and
/// before 4, else as for [`map`]. Cover area and loader area are then as they were; the scratch is
/// left as by [`map`], and its first [`SCRATCH`] bytes are 0 after 20 too.
///
/// ```
/// use kamfelu::{map_loader, COVER_AREA, LOADER_AREA, SCRATCH};
///
/// let net = [2, 3, 1, 3, 0, 0, 1, 8, 3, 2, 2, 4, 1, 6, 1, 0, 3, 1, 0, 4]; // net A
/// let (mut cover, mut scratch) = ([0; COVER_AREA], vec![0; SCRATCH]);
/// let mut loader = [0; LOADER_AREA];
/// let answer = map_loader(&net, 2, 0, &mut cover, &mut scratch, &mut loader);
/// assert_eq!((answer, cover[1]), (Ok(16), 2)); // two LUTs, with the tables 8 and 9
/// assert_eq!(loader[..8], [0x88; 8]);
/// assert_eq!(loader[8..16], [0x99; 8]);
/// let answer = map_loader(&net, 2, 0, &mut cover, &mut scratch, &mut loader[..255]);
/// assert_eq!(answer, Err(20));
/// ```
pub fn map_loader(
    net: &[u8],
    k: u32,
    target: u32,
    cover: &mut [u8],
    scratch: &mut [u8],
    loader: &mut [u8],
) -> Result<usize, u8> {
    // SAFETY: each pointer goes with its slice's length, and the slices are apart.
    told(unsafe {
        kamfelu_map_loader(
            net.as_ptr(),
            net.len(),
            k,
            target,
            cover.as_mut_ptr(),
            cover.len(),
            scratch.as_mut_ptr(),
            scratch.len(),
            loader.as_mut_ptr(),
            loader.len(),
        )
    })
}

/// A forward cover of a net for LUTs with k inputs that meets the target, and what the registers of
/// its board hold at first, so that board and net agree from step 0 on.
///
/// A cover is forward if for each LUT its lag and the largest d of the gates inside it together are
/// at most 0: registers have moved forward only.
///
/// - `net`, `k`, `cover`, `scratch`: as for [`map`].
/// - `target`: as for [`map`]; 0 asks for the least period that a forward cover meets.
/// - `loader`: as for [`map_loader`]; where it is empty none is lent.
/// - `contents`: the contents area, at least [`CONTENTS_AREA`] bytes. Where it is empty none is lent.
///   The net then needs a section.
///
/// `Ok` has the length of the cover record, as for [`map`]; the image is as for [`map_loader`]. The
/// first contents then stand in front of the contents area, if one is lent: a byte 0 or 1 for each
/// register, connection by connection in the record's order, leaves, then outputs, the newest
/// register first. [`connections`] gives each connection its own. A board that starts with them has
/// the outputs of the net that starts from its section, at every step from 0 on and for all inputs.
/// Bytes behind them are kept.
///
/// `Err` has the number of the refusal: 3 for a contents area that is too short too, 20 as for
/// [`map_loader`], 21 where a contents area is lent and the net has no section, told after 11, then
/// 22, in place of 12, where no forward cover meets the target; else as for [`map`]. Cover area,
/// loader area and contents area are then as they were; the scratch is left as by [`map_loader`].
///
/// ```
/// use kamfelu::{map_forward, CONTENTS_AREA, COVER_AREA, SCRATCH};
///
/// // Net C with a section: gate 2 = and(0:1, 1:1); one step before step 0 both inputs were 1.
/// let net = [0x82, 1, 1, 3, 3, 0, 1, 1, 1, 8, 0, 2, 1, 1, 0];
/// let (mut cover, mut scratch) = ([0; COVER_AREA], vec![0; SCRATCH]);
/// let mut contents = vec![7; CONTENTS_AREA];
/// let answer = map_forward(&net, 2, 1, &mut cover, &mut scratch, &mut [], &mut contents);
/// assert_eq!((answer, cover[11]), (Ok(13), 0xff)); // the lag is -1
/// assert_eq!(contents[..2], [1, 7]); // the output's register: gate 2 at step 0, and no more
/// let bare = [2, 1, 1, 3, 3, 0, 1, 1, 1, 8, 0, 2];
/// let answer = map_forward(&bare, 2, 1, &mut cover, &mut scratch, &mut [], &mut contents);
/// assert_eq!(answer, Err(21)); // no section
/// ```
pub fn map_forward(
    net: &[u8],
    k: u32,
    target: u32,
    cover: &mut [u8],
    scratch: &mut [u8],
    loader: &mut [u8],
    contents: &mut [u8],
) -> Result<usize, u8> {
    // SAFETY: each pointer goes with its slice's length, and the slices are apart.
    told(unsafe {
        kamfelu_map_forward(
            net.as_ptr(),
            net.len(),
            k,
            target,
            cover.as_mut_ptr(),
            cover.len(),
            scratch.as_mut_ptr(),
            scratch.len(),
            loader.as_mut_ptr(),
            loader.len(),
            contents.as_mut_ptr(),
            contents.len(),
        )
    })
}

/// [`map_forward`] for a board that takes over from a running unit: the net first runs on input
/// pairs from its section, and the contents are those of the step behind them.
///
/// - `net`, `k`, `target`, `cover`, `scratch`, `loader`: as for [`map_forward`]. `k` is the new
///   board's.
/// - `pairs`: two bytes for each step from 0 on, low first, input i in bit i; higher bits are
///   ignored, and a lone last byte is no step. Any number of steps.
/// - `contents`: the contents area, at least [`CONTENTS_AREA`] bytes. One must be lent, and the net
///   needs a section.
///
/// `Ok` has the length of the cover record. Cover area, scratch and loader area are left as by
/// [`map_forward`]: the pairs change no cover. The contents have the same order, and [`connections`]
/// gives each connection its own. Register i of a connection, 1 the newest, from a node with lag q
/// holds the value that the node has in the net at step T - i - q, where T is the number of whole
/// pairs; below step 0 that is the section's. A board that starts with them at step T has the
/// outputs of the net that ran all along, at every step from T on and for all inputs. Without a whole
/// pair the call is [`map_forward`].
///
/// `Err` has the number of the refusal, in the order of [`map_forward`]; 3 for an empty contents
/// area too.
///
/// ```
/// use kamfelu::{change_over, CONTENTS_AREA, COVER_AREA, SCRATCH};
///
/// // Net C with a section: gate 2 = and(0:1, 1:1); one step before step 0 both inputs were 1.
/// let net = [0x82, 1, 1, 3, 3, 0, 1, 1, 1, 8, 0, 2, 1, 1, 0];
/// let (mut cover, mut scratch) = ([0; COVER_AREA], vec![0; SCRATCH]);
/// let mut contents = vec![7; CONTENTS_AREA];
/// let mut call = |pairs: &[u8]| {
///     let areas = (&mut cover, &mut scratch, &mut contents);
///     let answer = change_over(&net, 2, 1, pairs, areas.0, areas.1, &mut [], areas.2);
///     (answer, contents[0])
/// };
/// assert_eq!(call(&[]), (Ok(13), 1)); // step 0: as map_forward
/// assert_eq!(call(&[2, 0, 9]), (Ok(13), 0)); // step 1: input 0 was 0, so gate 2 is 0 there
/// assert_eq!(call(&[2, 0, 3, 0]), (Ok(13), 1)); // step 2: both inputs were 1
/// let answer = change_over(&net, 2, 1, &[], &mut cover, &mut scratch, &mut [], &mut []);
/// assert_eq!(answer, Err(3)); // no contents area
/// ```
#[allow(clippy::too_many_arguments)]
pub fn change_over(
    net: &[u8],
    k: u32,
    target: u32,
    pairs: &[u8],
    cover: &mut [u8],
    scratch: &mut [u8],
    loader: &mut [u8],
    contents: &mut [u8],
) -> Result<usize, u8> {
    // SAFETY: each pointer goes with its slice's length, and the slices are apart.
    told(unsafe {
        kamfelu_change_over(
            net.as_ptr(),
            net.len(),
            k,
            target,
            pairs.as_ptr(),
            pairs.len(),
            cover.as_mut_ptr(),
            cover.len(),
            scratch.as_mut_ptr(),
            scratch.len(),
            loader.as_mut_ptr(),
            loader.len(),
            contents.as_mut_ptr(),
            contents.len(),
        )
    })
}

/// Whether a record is that of a cover of a net for LUTs with k inputs that meets the period it
/// states, and by how much that period is above the least one.
///
/// - `net`: a net record.
/// - `k`: 2 to 6.
/// - `record`: the candidate's cover record.
/// - `scratch`: at least [`SCRATCH`] bytes, whatever they are.
///
/// `Ok` has the excess: the stated period minus the least period for that k.
///
/// `Err` has the number of the refusal: 1 for k, 3 for a scratch that is too short, 4 to 11 for the
/// net, as in [`map`], 13 for a record that breaks the layout, 14 to 18 for one that is no such
/// cover. A record that [`map`], [`map_forward`] or [`change_over`] wrote is accepted for the same net
/// and k.
///
/// After 1 and 3 the scratch is as it was; after every other outcome its first [`SCRATCH`] bytes
/// are 0 and the rest is kept.
///
/// ```
/// use kamfelu::{mark, SCRATCH};
///
/// let net = [2, 3, 1, 3, 0, 0, 1, 8, 3, 2, 2, 4, 1, 6, 1, 0, 3, 1, 0, 4]; // net A
/// let record = [2, 2, 2, 2, 0, 0, 1, 8, 4, 2, 2, 2, 4, 1, 0, 9]; // its cover for k 2
/// let mut scratch = vec![0; SCRATCH];
/// assert_eq!(mark(&net, 2, &record, &mut scratch), Ok(0));
/// assert_eq!(mark(&net, 3, &record, &mut scratch), Ok(1));
/// assert_eq!(mark(&net, 2, &record[..15], &mut scratch), Err(13)); // it ends early
/// ```
pub fn mark(net: &[u8], k: u32, record: &[u8], scratch: &mut [u8]) -> Result<usize, u8> {
    mark_by(kamfelu_mark, net, k, record, scratch)
}

/// Whether gate g has a LUT in a stored cover record, without its net.
///
/// `Ok(Some(offset))`: it has, and `offset` is the place of the LUT's root in the record. `Ok(None)`:
/// it has none. Roots rise, so the record is read up to the first root that is not below g, and what
/// follows that root is not looked at.
///
/// `Err(19)`: the record ends or breaks the layout before that root, or before its last LUT's end if
/// there is no such root. Leaf counts may be 1 to 6 and nodes any numbers; bytes behind the last LUT
/// do no harm. For a record that [`mark`] accepts, for some net and k, the answer is never 19.
///
/// ```
/// let record = [2, 2, 2, 2, 0, 0, 1, 8, 4, 2, 2, 2, 4, 1, 0, 9]; // net A's cover for k 2
/// assert_eq!(kamfelu::find_root(&record, 4), Ok(Some(8)));
/// assert_eq!(kamfelu::find_root(&record, 3), Ok(None));
/// assert_eq!(kamfelu::find_root(&record[..9], 4), Ok(Some(8)));
/// assert_eq!(kamfelu::find_root(&record[..9], 5), Err(19));
/// ```
pub fn find_root(record: &[u8], g: u16) -> Result<Option<usize>, u8> {
    // SAFETY: the pointer goes with its slice's length, and the record is only read.
    let answer = unsafe { kamfelu_find_root(record.as_ptr(), record.len(), g) };
    told(answer).map(|offset| (offset != 0).then_some(offset))
}

/// [`map`] of the short course: `k` is 2 to 4, else refusal 1; a net has at most 8 gates, else
/// refusal 5. All else is as for [`map`]; where k is at most 4 and the net has at most 8 gates both
/// give the same, areas and scratch too.
///
/// ```
/// use kamfelu::{short_map, COVER_AREA, SCRATCH};
///
/// let net = [2, 3, 1, 3, 0, 0, 1, 8, 3, 2, 2, 4, 1, 6, 1, 0, 3, 1, 0, 4]; // net A
/// let (mut cover, mut scratch) = ([0; COVER_AREA], vec![0; SCRATCH]);
/// assert_eq!(short_map(&net, 2, 0, &mut cover, &mut scratch), Ok(16));
/// assert_eq!(short_map(&net, 5, 0, &mut cover, &mut scratch), Err(1));
/// assert_eq!(short_map(&[2, 9], 2, 0, &mut cover, &mut scratch), Err(5));
/// ```
pub fn short_map(
    net: &[u8],
    k: u32,
    target: u32,
    cover: &mut [u8],
    scratch: &mut [u8],
) -> Result<usize, u8> {
    map_by(kamfelu_short_map, net, k, target, cover, scratch)
}

/// [`mark`] of the short course, with the limits of [`short_map`].
pub fn short_mark(net: &[u8], k: u32, record: &[u8], scratch: &mut [u8]) -> Result<usize, u8> {
    mark_by(kamfelu_short_mark, net, k, record, scratch)
}

/// The smallest table that a table of three leaves can be turned into by reordering leaves,
/// inverting leaves and inverting the output.
///
/// Bit i of a table is its value where leaf j carries bit j of i. Tables have the same class
/// exactly when one can be turned into the other. Nothing is refused.
///
/// ```
/// assert_eq!(kamfelu::class(232), 23); // the majority of three leaves
/// ```
pub fn class(table: u8) -> u8 {
    // SAFETY: a number in and a number out.
    unsafe { kamfelu_class(table) }
}

/// By how many steps the second of two captures of one unit's outputs began after the first; one
/// word a step, at most 4,096 words each.
///
/// `Ok(Some(shift))` has the smallest shift from 0 to 255 at which at least 16 steps overlap and
/// all overlapping words agree, where word i of the second is held against word i + shift of the
/// first. `Ok(None)`: there is none.
///
/// `Err(23)`: a capture has more than 4,096 words.
///
/// ```
/// let unit: Vec<u16> = (0..5000).collect();
/// assert_eq!(kamfelu::align(&unit[..100], &unit[3..103]), Ok(Some(3)));
/// assert_eq!(kamfelu::align(&unit[3..103], &unit[..100]), Ok(None));
/// assert_eq!(kamfelu::align(&unit, &unit[..100]), Err(23));
/// ```
pub fn align(first: &[u16], second: &[u16]) -> Result<Option<u16>, u8> {
    // SAFETY: each pointer goes with its slice's length, and both are only read.
    let answer =
        unsafe { kamfelu_align(first.as_ptr(), first.len(), second.as_ptr(), second.len()) };
    told(answer).map(shift)
}

/// 256 stands for none.
fn shift(number: usize) -> Option<u16> {
    assert!(number <= 256, "a shift");
    u8::try_from(number).ok().map(u16::from)
}

/// A negative answer is a refusal.
fn told(answer: i64) -> Result<usize, u8> {
    let size = answer.unsigned_abs();
    if answer < 0 {
        Err(u8::try_from(size).expect("a refusal's number"))
    } else {
        Ok(usize::try_from(size).expect("a length"))
    }
}
