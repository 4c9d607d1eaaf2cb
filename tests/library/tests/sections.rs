//! A section changes no cover (document 02, E5): map, with a loader area and without, forward map without
//! contents, mark and both of the short course on a net with a section and on the same net without it; answers
//! and areas, whole.

use kamfelu::{COVER_AREA, LOADER_AREA, SCRATCH};
use library::compare::LIMITS;
use library::inputs::{some_k, some_net};
use library::nets::{net_a, net_b, net_c, real};
use library::tally::{cases, each_thread, seed};
use second::damage::candidate;
use second::encode::{encode_with_holes, random_section, with_section};
use second::{parse_net, Random};

/// A job over a net, k, a target, a cover area or record, a scratch and a loader area.
type Job = fn(&[u8], u32, u32, &mut [u8], &mut [u8], &mut [u8]) -> Result<usize, u8>;

const MAPS: [Job; 4] = [
    |net, k, target, cover, scratch, _| kamfelu::map(net, k, target, cover, scratch),
    |net, k, target, cover, scratch, _| kamfelu::short_map(net, k, target, cover, scratch),
    kamfelu::map_loader,
    |net, k, target, cover, scratch, loader| {
        kamfelu::map_forward(net, k, target, cover, scratch, loader, &mut [])
    },
];
const MARKS: [Job; 2] = [
    |net, k, _, record, scratch, _| kamfelu::mark(net, k, record, scratch),
    |net, k, _, record, scratch, _| kamfelu::short_mark(net, k, record, scratch),
];

/// k, the target and what the areas hold before a call.
struct Call {
    k: u32,
    target: u32,
    areas: [Vec<u8>; 3],
}

impl Call {
    /// Areas around their least lengths, full of one byte.
    fn random(random: &mut Random, k: u32) -> Call {
        let byte = random.byte();
        let mut area = |least: usize| {
            let length = match random.below(30) {
                0 => least - 1,
                _ => random.within(least, least + 1),
            };
            vec![byte; length]
        };
        let areas = [COVER_AREA, SCRATCH, LOADER_AREA].map(&mut area);
        let target = random.pick(&[0, 0, 1, 2, 3, 32, 33]);
        Call { k, target, areas }
    }

    /// The answer to a net, and what the areas hold after the call.
    fn left(&self, job: Job, net: &[u8]) -> (Result<usize, u8>, [Vec<u8>; 3]) {
        let mut areas = self.areas.clone();
        let [cover, scratch, loader] = &mut areas;
        (job(net, self.k, self.target, cover, scratch, loader), areas)
    }

    /// The answer, which is the same for both records.
    fn same(&self, jobs: &[Job], net: &[u8], with: &[u8]) -> Result<usize, u8> {
        let mut first = None;
        for &job in jobs {
            let told = self.left(job, net);
            assert!(
                told == self.left(job, with),
                "net {net:?} k {} target {}",
                self.k,
                self.target
            );
            first.get_or_insert(told.0);
        }
        first.expect("a job")
    }
}

/// Map, then mark of a record.
fn both(random: &mut Random, k: u32, net: &[u8], record: Option<Vec<u8>>) -> [bool; 2] {
    let read = parse_net(net, 6).expect("a net");
    let with = with_section(net, &random_section(read.nodes(), random));
    let mut call = Call::random(random, k);
    let mapped = call.same(&MAPS, net, &with);
    if let Some(record) = record {
        call.areas[0] = record;
    } else if let Ok(length) = mapped {
        call.areas[0] = call.left(MAPS[0], net).1[0][..length].to_vec();
    }
    let marked = call.same(&MARKS, net, &with);
    [mapped.is_ok(), marked.is_ok()]
}

#[test]
fn random_nets() {
    let rounds = cases() / 12;
    let told = each_thread(|thread, threads| {
        let mut random = Random::new(seed().wrapping_mul(1_000_231).wrapping_add(thread));
        let mut done = [0, 0];
        for _ in 0..rounds / threads {
            let (net, pins) = some_net(&mut random);
            let Ok(read) = parse_net(&net, 6) else {
                continue;
            };
            let k = some_k(&mut random, pins);
            let wanted = random.chance(50) && (2..=6).contains(&k);
            let record = match parse_net(&net, k).ok().filter(|_| wanted) {
                Some(read) if second::check_net(&read).is_ok() => {
                    candidate(&mut random, &read, k, LIMITS)
                }
                _ => None,
            };
            let bare = encode_with_holes(&read, &mut random);
            let answers = both(&mut random, k, &bare, record);
            for (sum, answer) in done.iter_mut().zip(answers) {
                *sum += u64::from(answer);
            }
        }
        done
    });
    let enough = |done: &[u64; 2]| done.iter().all(|&done| done > rounds / 20);
    assert!(told.iter().all(enough), "few covers: {told:?}");
}

/// Document 01's nets and those of real designs, with every k.
#[test]
fn nets_by_hand() {
    let mut random = Random::new(5);
    let mut nets = vec![net_a(), net_b(0), net_b(1), net_c()];
    nets.extend(real());
    for net in nets {
        for k in 0..=8 {
            both(&mut random, k, &net, None);
        }
    }
}
