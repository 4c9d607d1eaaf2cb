//! Map with a loader area (document 02, E4) against the second mapper's: answers, cover areas, loader areas
//! and scratch, whole.

use kamfelu::{COVER_AREA, LOADER_AREA, SCRATCH};
use library::compare::{all_lengths, all_maps, random_calls, Call, Sides};
use library::inputs::{some_k, some_net};
use library::nets::{hand_made, largest_record, net, net_a, net_b, net_c, real, refused, Read};
use library::tally::{cases, each_thread, seed};
use second::encode::encode;
use second::jobs::{COVER_BYTES, LONG, SCRATCH_BYTES};
use second::loader::LOADER_BYTES;
use second::{lut_value, read_net, read_record, Random};

/// The image that map writes for a net's least period; the areas are left as document 02 says.
fn image(net: &[u8], k: u32) -> Vec<u8> {
    let mut cover = vec![7; COVER_AREA + 1];
    let mut scratch = vec![9; SCRATCH + 1];
    let mut loader = vec![5; LOADER_AREA + 1];
    let answer = kamfelu::map_loader(net, k, 0, &mut cover, &mut scratch, &mut loader);
    let length = answer.expect("a record");
    assert!(cover[length..].iter().all(|&byte| byte == 7));
    assert!(scratch[..SCRATCH].iter().all(|&byte| byte == 0) && scratch[SCRATCH] == 9);
    let written = 8 * usize::from(cover[1]);
    assert!(loader[written..].iter().all(|&byte| byte == 5));
    loader.truncate(written);
    loader
}

#[test]
fn by_hand() {
    let least = (COVER_BYTES, SCRATCH_BYTES, LOADER_BYTES);
    assert_eq!((COVER_AREA, SCRATCH, LOADER_AREA), least);
    assert_eq!(image(&net_a(), 2), [[0x88; 8], [0x99; 8]].concat());
    assert_eq!(image(&net_a(), 3), [0x87; 8]);
    assert_eq!(image(&net_b(1), 2), [0x88; 16]);
    assert_eq!(image(&net_b(1), 3), [0x80; 8]);
    assert_eq!(image(&net_c(), 2), [0x88; 8]);
    let gate = |pins: usize, table: u64| {
        let reads: Vec<Read> = (0..pins).map(|i| (i, 0)).collect();
        let net = net(pins, &[(&reads, table)], &[(pins, 0)]);
        image(&encode(&net), 6)
    };
    assert_eq!(gate(1, 2), [0xaa; 8]);
    assert_eq!(gate(1, 1), [0x55; 8]);
    assert_eq!(gate(2, 8), [0x88; 8]);
    assert_eq!(gate(3, 0xe8), [0xe8; 8]);
    assert_eq!(gate(4, 0x1234), [0x34, 0x12].repeat(4));
    assert_eq!(gate(5, 0x1234_5678), [0x78, 0x56, 0x34, 0x12].repeat(2));
    let bytes = [0xef, 0xcd, 0xab, 0x89, 0x67, 0x45, 0x23, 0x01];
    assert_eq!(gate(6, u64::from_le_bytes(bytes)), bytes);
    // 32 LUTs, the longest image.
    assert_eq!(image(&encode(&largest_record()), 6).len(), LOADER_AREA);
}

#[test]
fn random_and_damaged_nets() {
    let all = cases() / 2;
    let tally = random_calls(LONG, all, 1_000_211, Sides::random_loads);
    let rare = |&number: &usize| tally.seen[number] <= 25;
    assert!(
        all < 50_000 || !(0..=12).chain([20]).any(|number| rare(&number)),
        "an answer is rare"
    );
    tally.fail_on_differences();
}

/// Every k from 0 to 8 and the huge ones with the small targets, the limits and the huge ones.
#[test]
fn hand_made_nets_with_all_k() {
    let loaders = [0, 1, 255, 256, 257].map(Call::Loader);
    all_maps(LONG, &hand_made(), &[0, 1, 2, 3, 31, 32, 33], &loaders);
}

#[test]
fn real_nets() {
    all_maps(LONG, &real(), &[0, 2, 32], &[255, 256].map(Call::Loader));
}

/// All lengths around the limits, for nets that are mapped and some that are refused: 20 comes behind 3 and
/// before 4 to 12.
#[test]
fn areas_around_the_limits() {
    let mut nets = vec![net_a(), encode(&largest_record())];
    nets.extend(refused());
    let lengths: [&[usize]; 2] = [&[0, 961, 962, 963], &[0, 65_535, 65_536, 65_537]];
    let loaders = [0, 1, 8, 16, 128, 255, 256, 257, 300, 65_536].map(Call::Loader);
    let asked = [(2, 0), (6, 0), (2, 1), (1, 0), (2, 33), (7, 33)];
    let tally = all_lengths(&nets, lengths, &loaders, &asked);
    assert!((0..=12).chain([20]).all(|number| tally.seen[number] > 0));
}

/// Map without a loader area, with one of length 0 and with a long one, on the same inputs: answer, cover
/// area and scratch are the same.
#[test]
fn map_beside_the_loader() {
    let rounds = cases() / 12;
    each_thread(|thread, threads| {
        let mut random = Random::new(seed().wrapping_mul(1_000_213).wrapping_add(thread));
        let noise: Vec<u8> = (0..SCRATCH + 3).map(|_| random.byte()).collect();
        for _ in 0..rounds / threads {
            let (net, pins) = some_net(&mut random);
            let k = some_k(&mut random, pins);
            let target = random.pick(&[0, 0, 1, 2, 3, 32, 33]);
            let cover = random.pick(&[961, 962, 963]);
            let scratch = random.pick(&[SCRATCH - 1, SCRATCH, SCRATCH + 3]);
            let call = |loader: Option<usize>| {
                let (mut cover, mut scratch) = (noise[..cover].to_vec(), noise[..scratch].to_vec());
                let answer = match loader {
                    None => kamfelu::map(&net, k, target, &mut cover, &mut scratch),
                    Some(length) => {
                        let mut loader = noise[..length].to_vec();
                        let areas = (&mut cover, &mut scratch, &mut loader);
                        kamfelu::map_loader(&net, k, target, areas.0, areas.1, areas.2)
                    }
                };
                (answer, cover, scratch)
            };
            let plain = call(None);
            assert!(call(Some(0)) == plain, "net {net:?} k {k} target {target}");
            assert!(
                call(Some(256)) == plain,
                "net {net:?} k {k} target {target}"
            );
        }
    });
}

/// "a LUT's repeated table must be the value of its root whatever stands on the unused inputs": bit x of each
/// LUT's 64 against the cone's value for choice x.
#[test]
fn the_value_of_the_root() {
    let rounds = cases() / 60;
    let counts = each_thread(|thread, threads| {
        let mut random = Random::new(seed().wrapping_mul(1_000_231).wrapping_add(thread));
        let mut scratch = vec![0; SCRATCH];
        let mut seen = [0; 7];
        for _ in 0..rounds / threads {
            let (bytes, pins) = some_net(&mut random);
            let k = pins.max(random.within(2, 6)) as u32;
            let (mut cover, mut loader) = (vec![0; COVER_AREA], vec![0; LOADER_AREA]);
            let target = random.pick(&[0, 0, 3, 32]);
            let areas = (&mut cover, &mut scratch, &mut loader);
            let answer = kamfelu::map_loader(&bytes, k, target, areas.0, areas.1, areas.2);
            let Ok(length) = answer else {
                continue;
            };
            let net = read_net(&bytes, k).expect("a net");
            let cover = read_record(&net, k, &cover[..length]).expect("a record");
            for (lut, image) in cover.luts.iter().zip(loader.chunks(8)) {
                for choice in 0..64 {
                    let bit = image[choice / 8] >> (choice % 8) & 1 == 1;
                    let value = lut_value(&net, lut.root, &lut.leaves, choice as u64);
                    assert_eq!(bit, value, "net {bytes:?} k {k} {lut:?} choice {choice}");
                }
                seen[lut.leaves.len()] += 1;
            }
        }
        seen
    });
    println!("LUTs by leaves {counts:?}");
    for seen in counts {
        assert!(rounds < 2000 || seen[1..].iter().all(|&luts| luts > 100));
    }
}
