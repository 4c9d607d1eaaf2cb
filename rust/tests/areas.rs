//! The areas' least lengths, in a thread with the stack that the crate names.

use kamfelu::{change_over, map, map_forward, map_loader, mark};
use kamfelu::{CONTENTS_AREA, COVER_AREA, LOADER_AREA, SCRATCH, STACK};

const NET_A: [u8; 20] = [2, 3, 1, 3, 0, 0, 1, 8, 3, 2, 2, 4, 1, 6, 1, 0, 3, 1, 0, 4];
const RECORD_A: [u8; 16] = [2, 2, 2, 2, 0, 0, 1, 8, 4, 2, 2, 2, 4, 1, 0, 9];

/// Net C with a section, and its forward cover for k 2 and period 1.
const NET_C: [u8; 15] = [0x82, 1, 1, 3, 3, 0, 1, 1, 1, 8, 0, 2, 1, 1, 0];
const RECORD_C: [u8; 13] = [1, 1, 2, 2, 0x43, 0, 1, 1, 0, 1, 0, 0xff, 8];

/// In a thread with so little stack.
fn in_thread<T: Send + 'static>(work: impl FnOnce() -> T + Send + 'static) -> T {
    let thread = std::thread::Builder::new().stack_size(STACK);
    let ended = thread.spawn(work).expect("a thread").join();
    ended.expect("the thread ends")
}

/// An area full of `byte` before the call has these bytes in front now, all else kept.
fn has(area: &[u8], front: &[u8], byte: u8) -> bool {
    area.starts_with(front) && area[front.len()..].iter().all(|&kept| kept == byte)
}

/// Map and mark of net A at k 2, with areas of these lengths.
fn answers(cover: usize, scratch: usize) -> [Result<usize, u8>; 2] {
    in_thread(move || {
        let (mut cover, mut scratch) = (vec![7; cover], vec![9; scratch]);
        let mapped = map(&NET_A, 2, 0, &mut cover, &mut scratch);
        assert!(has(&cover, &RECORD_A[..mapped.unwrap_or(0)], 7));
        [mapped, mark(&NET_A, 2, &RECORD_A, &mut scratch)]
    })
}

/// Map of net A at k 2 with a loader area, with areas of these lengths.
fn loaded(cover: usize, scratch: usize, loader: usize) -> Result<usize, u8> {
    in_thread(move || {
        let (mut cover, mut scratch) = (vec![7; cover], vec![9; scratch]);
        let mut image = vec![5; loader];
        let mapped = map_loader(&NET_A, 2, 0, &mut cover, &mut scratch, &mut image);
        let written = match mapped {
            Ok(_) if loader > 0 => 16,
            _ => 0,
        };
        assert!(has(&cover, &RECORD_A[..mapped.unwrap_or(0)], 7));
        assert!(has(&image, &[[0x88; 8], [0x99; 8]].concat()[..written], 5));
        let left = if mapped == Err(3) { 9 } else { 0 };
        assert!(scratch.iter().all(|&byte| byte == left));
        mapped
    })
}

/// Forward map of net C at k 2 for period 1, or a change-over behind these pairs, with areas of these lengths; the
/// register then holds this byte.
fn forward(pairs: Option<&'static [u8]>, held: u8, lengths: [usize; 4]) -> Result<usize, u8> {
    in_thread(move || {
        let [mut cover, mut scratch, mut loader, mut contents] =
            [(0, 7), (1, 9), (2, 5), (3, 3)].map(|(area, byte)| vec![byte; lengths[area]]);
        let (room, work) = (&mut cover, &mut scratch);
        let (image, first) = (&mut loader, &mut contents);
        let mapped = match pairs {
            None => map_forward(&NET_C, 2, 1, room, work, image, first),
            Some(pairs) => change_over(&NET_C, 2, 1, pairs, room, work, image, first),
        };
        let written = |area: &[u8], bytes: usize| {
            if mapped.is_ok() && !area.is_empty() {
                bytes
            } else {
                0
            }
        };
        assert!(has(&cover, &RECORD_C[..mapped.unwrap_or(0)], 7));
        assert!(has(&loader, &[0x88; 8][..written(&loader, 8)], 5));
        assert!(has(&contents, &[held][..written(&contents, 1)], 3));
        let left = if mapped == Err(3) { 9 } else { 0 };
        assert!(scratch.iter().all(|&byte| byte == left));
        mapped
    })
}

#[test]
fn least_lengths() {
    assert_eq!(answers(COVER_AREA, SCRATCH), [Ok(16), Ok(0)]);
    assert_eq!(answers(COVER_AREA - 1, SCRATCH), [Err(3), Ok(0)]);
    assert_eq!(answers(COVER_AREA, SCRATCH - 1), [Err(3), Err(3)]);
    assert_eq!(answers(0, 0), [Err(3), Err(3)]);
}

#[test]
fn least_lengths_with_a_loader() {
    for loader in [0, LOADER_AREA, LOADER_AREA + 1, 4096] {
        assert_eq!(loaded(COVER_AREA, SCRATCH, loader), Ok(16));
    }
    for loader in [1, 16, LOADER_AREA - 1] {
        assert_eq!(loaded(COVER_AREA, SCRATCH, loader), Err(20));
    }
    for loader in [0, 1, LOADER_AREA - 1, LOADER_AREA] {
        assert_eq!(loaded(COVER_AREA - 1, SCRATCH, loader), Err(3));
        assert_eq!(loaded(COVER_AREA, SCRATCH - 1, loader), Err(3));
    }
}

/// The calls that write contents: forward map, and change-overs at steps 0, 1 and 2; what the register then holds.
const CALLS: [(Option<&[u8]>, u8); 5] = [
    (None, 1),
    (Some(&[]), 1),
    (Some(&[2]), 1),
    (Some(&[2, 0, 9]), 0),
    (Some(&[2, 0, 3, 0]), 1),
];

#[test]
fn least_lengths_with_contents() {
    for (pairs, held) in CALLS {
        let told = |lengths| forward(pairs, held, lengths);
        // Without contents there is no change-over.
        let none = if pairs.is_none() { Ok(13) } else { Err(3) };
        for loader in [0, LOADER_AREA, LOADER_AREA + 1] {
            for contents in [CONTENTS_AREA, CONTENTS_AREA + 1] {
                assert_eq!(told([COVER_AREA, SCRATCH, loader, contents]), Ok(13));
            }
            assert_eq!(told([COVER_AREA, SCRATCH, loader, 0]), none);
        }
        for loader in [0, 1, LOADER_AREA - 1, LOADER_AREA] {
            for contents in [1, CONTENTS_AREA - 1] {
                assert_eq!(told([COVER_AREA, SCRATCH, loader, contents]), Err(3));
            }
            for contents in [0, CONTENTS_AREA] {
                assert_eq!(told([COVER_AREA - 1, SCRATCH, loader, contents]), Err(3));
                assert_eq!(told([COVER_AREA, SCRATCH - 1, loader, contents]), Err(3));
            }
        }
        for loader in [1, LOADER_AREA - 1] {
            let lengths = [COVER_AREA, SCRATCH, loader, CONTENTS_AREA];
            assert_eq!(told(lengths), Err(20));
        }
    }
}
