//! The image for the loader (document 02, E4): by hand, against the cone's value for each of the 64
//! choices, and what map does to the areas.

mod common;

use common::{net_a, net_b, net_bytes, net_c, GateText, AND};
use second::damage::damaged_net;
use second::encode::encode;
use second::generate::{random_net, Shape};
use second::jobs::{COVER_BYTES, SCRATCH_BYTES};
use second::loader::{image, LOADER_BYTES};
use second::{lut_value, map_loader, read_net, read_record, solve, Answer, Limits, Mode, Random};

/// The image of map's cover for a net.
fn image_of(net: &[u8], k: u32) -> Vec<u8> {
    let net = read_net(net, k).expect("a net");
    image(
        &solve(&net, Mode::Plain, k, 0, Limits::default())
            .expect("a cover")
            .0,
    )
}

#[test]
fn by_hand() {
    assert_eq!(image_of(&net_a(), 2), [[0x88; 8], [0x99; 8]].concat());
    assert_eq!(image_of(&net_a(), 3), [0x87; 8]);
    assert_eq!(image_of(&net_b(1), 2), [0x88; 16]);
    assert_eq!(image_of(&net_b(1), 3), [0x80; 8]);
    assert_eq!(image_of(&net_c(), 2), [0x88; 8]);
    let gate = |pins: usize, table: u64| {
        let pins: Vec<(usize, u32)> = (0..pins).map(|i| (i, 0)).collect();
        image_of(
            &net_bytes(pins.len(), &[(&pins, table)], &[(pins.len(), 0)]),
            6,
        )
    };
    assert_eq!(gate(1, 2), [0xaa; 8]);
    assert_eq!(gate(1, 1), [0x55; 8]);
    assert_eq!(gate(2, AND), [0x88; 8]);
    assert_eq!(gate(3, 0xe8), [0xe8; 8]);
    assert_eq!(gate(4, 0x1234), [0x34, 0x12].repeat(4));
    assert_eq!(gate(5, 0x1234_5678), [0x78, 0x56, 0x34, 0x12].repeat(2));
    assert_eq!(gate(6, 0x0123_4567_89ab_cdef), {
        [0xef, 0xcd, 0xab, 0x89, 0x67, 0x45, 0x23, 0x01]
    });
}

/// Bit x of a LUT's 64 is the value of its root for choice x, whatever stands on the unused inputs.
#[test]
fn the_value_of_the_root_for_all_64_choices() {
    let mut random = Random::new(61);
    let mut seen = [0; 7];
    for _ in 0..3000 {
        let k = random.within(2, 6);
        let shape = Shape::any(&mut random, 12, k);
        let net = random_net(&mut random, &shape);
        let target = random.pick(&[0, 0, 3, 12]);
        let Ok((cover, _)) = solve(&net, Mode::Plain, k as u32, target, Limits::default()) else {
            continue;
        };
        let image = image(&cover);
        assert_eq!(image.len(), 8 * cover.luts.len());
        for (lut, bytes) in cover.luts.iter().zip(image.chunks(8)) {
            let full = u64::from_le_bytes(bytes.try_into().expect("eight bytes"));
            for choice in 0..64 {
                let value = lut_value(&net, lut.root, &lut.leaves, choice);
                assert_eq!(full >> choice & 1 == 1, value, "{net:?} {lut:?} {choice}");
            }
            let n = lut.leaves.len();
            assert_eq!(full & second::bytes::table_mask(n), lut.table);
            seen[n] += 1;
        }
    }
    assert!(seen[1..].iter().all(|&luts| luts > 100), "{seen:?}");
}

/// A call with areas full of 7, 9 and 5, each so long: the answer and the areas.
struct Call {
    answer: Answer,
    cover: Vec<u8>,
    scratch: Vec<u8>,
    loader: Vec<u8>,
}

fn call(net: &[u8], k: u32, target: u32, lengths: [usize; 3]) -> Call {
    let [mut cover, mut scratch, mut loader] =
        [(0, 7), (1, 9), (2, 5)].map(|(area, byte)| vec![byte; lengths[area]]);
    let answer = map_loader(net, k, target, &mut cover, &mut scratch, &mut loader);
    Call {
        answer,
        cover,
        scratch,
        loader,
    }
}

fn all(area: &[u8], byte: u8) -> bool {
    area.iter().all(|&other| other == byte)
}

/// The least lengths of cover area and scratch, and a length of the loader area.
fn least(loader: usize) -> [usize; 3] {
    [COVER_BYTES, SCRATCH_BYTES, loader]
}

#[test]
fn areas_of_a() {
    for length in [256, 257, 300, 4096] {
        let a = call(&net_a(), 2, 0, least(length));
        assert_eq!(a.answer, Answer::Done(16));
        assert_eq!(a.loader[..16], [[0x88; 8], [0x99; 8]].concat());
        assert!(all(&a.loader[16..], 5) && all(&a.cover[16..], 7) && all(&a.scratch, 0));
    }
    for length in [1, 2, 16, 254, 255] {
        let a = call(&net_a(), 2, 0, least(length));
        assert_eq!(a.answer, Answer::Refused(20));
        assert!(all(&a.loader, 5) && all(&a.cover, 7) && all(&a.scratch, 0));
    }
}

#[test]
fn twenty_comes_behind_3_and_before_the_walk() {
    let refused = |net: &[u8], k, target, lengths| match call(net, k, target, lengths).answer {
        Answer::Refused(number) => number,
        other => panic!("{other:?}"),
    };
    let [cover, scratch, short] = least(255);
    assert_eq!(refused(&[], 7, 33, [0, 0, 255]), 1);
    assert_eq!(refused(&[], 6, 33, [0, 0, 255]), 2);
    assert_eq!(refused(&[], 6, 32, [0, 0, 255]), 3);
    assert_eq!(refused(&[], 6, 32, [cover - 1, scratch, short]), 3);
    assert_eq!(refused(&[], 6, 32, [cover, scratch - 1, short]), 3);
    // Nets with 4 to 8, 9 to 11 and 12, each with a loader area that is too short, then long enough.
    let loop_of_one = net_bytes(1, &[(&[(1, 0)], 2)], &[(1, 0)]);
    let from_nowhere = net_bytes(1, &[(&[(1, 1)], 2)], &[(1, 0)]);
    let to_nowhere = net_bytes(1, &[(&[(0, 0)], 2)], &[(0, 0)]);
    for (net, target, number) in [
        (vec![], 0, 4),
        (vec![17], 0, 5),
        (vec![1, 1, 1, 0], 0, 6),
        (vec![1, 1, 1, 7], 0, 7),
        ([net_a(), vec![0]].concat(), 0, 8),
        (loop_of_one, 0, 9),
        (from_nowhere, 0, 10),
        (to_nowhere, 0, 11),
        (net_a(), 1, 12),
    ] {
        assert_eq!(refused(&net, 2, target, [cover - 1, scratch, short]), 3);
        assert_eq!(refused(&net, 2, target, least(255)), 20);
        for length in [0, 256, 257] {
            let told = call(&net, 2, target, least(length));
            assert_eq!(told.answer, Answer::Refused(number));
            assert!(all(&told.loader, 5) && all(&told.cover, 7) && all(&told.scratch, 0));
        }
    }
    // 1 to 3 keep the scratch, 20 clears its first bytes and no more.
    let three = call(&net_a(), 2, 0, [cover - 1, scratch + 2, short]);
    assert!(all(&three.scratch, 9) && all(&three.loader, 5));
    let twenty = call(&net_a(), 2, 0, [cover, scratch + 2, short]);
    assert!(all(&twenty.scratch[..SCRATCH_BYTES], 0));
    assert_eq!(twenty.scratch[SCRATCH_BYTES..], [9, 9]);
}

/// The image of 32 LUTs fills 256 bytes: gate 16+i reads six inputs, gate 32+i five of them and gate 16+i.
#[test]
fn the_longest_image() {
    let mut pins: Vec<Vec<(usize, u32)>> = Vec::new();
    for i in 0..32 {
        let mut own: Vec<(usize, u32)> = (0..6).map(|j| ((i + j) % 16, 1)).collect();
        if i >= 16 {
            own[5] = (i, 1);
        }
        pins.push(own);
    }
    let gates: Vec<GateText> = pins.iter().map(|pins| (&pins[..], 1 << 63)).collect();
    let outputs: Vec<(usize, u32)> = (32..48).map(|gate| (gate, 0)).collect();
    let long = call(&net_bytes(16, &gates, &outputs), 6, 0, least(257));
    assert!(matches!(long.answer, Answer::Done(_)));
    assert_eq!(long.cover[1], 32);
    let lut = [0, 0, 0, 0, 0, 0, 0, 128];
    assert_eq!(long.loader[..LOADER_BYTES], lut.repeat(32));
    assert_eq!(long.loader[LOADER_BYTES], 5);
}

/// Map with a loader area is map in all else, and without one it is map.
#[test]
fn map_beside_the_loader() {
    let mut random = Random::new(62);
    let mut done = 0;
    for _ in 0..3000 {
        let k = random.within(2, 6);
        let shape = Shape::any(&mut random, 10, k);
        let mut net = encode(&random_net(&mut random, &shape));
        if random.chance(30) {
            net = damaged_net(&mut random, &net);
        }
        let (k, target) = (k as u32, random.pick(&[0, 0, 1, 2, 33]));
        let mut cover = vec![7; COVER_BYTES];
        let mut scratch = vec![9; SCRATCH_BYTES];
        let answer = second::map(&net, k, target, &mut cover, &mut scratch);
        for length in [0, 256, 300] {
            let own = call(&net, k, target, least(length));
            assert_eq!(own.answer, answer);
            assert!(own.cover == cover && own.scratch == scratch);
            let written = match answer {
                Answer::Done(record) if length > 0 => {
                    done += 1;
                    let read = read_net(&net, k).expect("a net");
                    let cover = read_record(&read, k, &cover[..record as usize]);
                    image(&cover.expect("a record"))
                }
                _ => Vec::new(),
            };
            assert!(own.loader.starts_with(&written));
            assert!(all(&own.loader[written.len()..], 5));
        }
    }
    assert!(done > 1000, "{done}");
}
