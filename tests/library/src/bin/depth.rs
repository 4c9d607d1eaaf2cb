//! How much stack the library's map takes, plain and forward with contents, and a change-over.
//!
//! `depth [nets] [seed]`. A thread's stack is painted with a pattern; after each call the
//! lowest place that has lost the pattern tells how deep the call went. Places between
//! the caller and the paint count as used, so a call seems to take at least 4 KiB.

use library::nets::{largest_record, line, of_family, FAMILIES};
use second::contents::CONTENTS_BYTES;
use second::encode::{encode, with_section};
use second::generate::{random_net, Shape};
use second::jobs::{COVER_BYTES, SCRATCH_BYTES};
use second::{Job, Net, Random};

const PAINTED: usize = 64 << 20;
/// Room for the frames that paint and look.
const ROOM: usize = 4 << 10;
/// After a call so much is looked at below the lowest place so far; all of it at the end.
const WINDOW: usize = 256 << 10;
/// The calls, and how each is named.
const JOBS: [(Job, &str); 3] = [
    (Job::Plain, ""),
    (Job::Forward, "forward, "),
    (Job::ChangeOver(&[0x5a; 41]), "change-over, "),
];
const PATTERN: u64 = 0x6b61_6d66_656c_7521;

/// The painted part of this thread's stack; it lies below the frame that made it.
struct Paint {
    start: usize,
    low: usize,
    high: usize,
    /// All from `low` to here is still painted.
    mark: usize,
}

impl Paint {
    /// The thread's stack must have more than `PAINTED` bytes below this frame.
    #[inline(never)]
    fn new() -> Paint {
        let here = 0u64;
        let start = std::hint::black_box(&here) as *const u64 as usize & !7;
        let high = start - ROOM;
        let mut paint = Paint {
            start,
            low: start - PAINTED,
            high,
            mark: start - PAINTED,
        };
        paint.again(high);
        paint
    }

    /// Paint from the mark up to a place, which is then the mark.
    #[inline(never)]
    fn again(&mut self, to: usize) {
        let mut place = self.mark;
        while place < to {
            // SAFETY: the place is in this thread's stack, below every live frame.
            unsafe { (place as *mut u64).write_volatile(PATTERN) };
            place += 8;
        }
        self.mark = to;
    }

    /// Look from `low` up to the mark; true if the mark has moved down.
    #[inline(never)]
    fn look(&mut self, low: usize) -> bool {
        let mut place = low.max(self.low);
        while place < self.mark {
            // SAFETY: as above; the place was painted.
            if unsafe { (place as *const u64).read_volatile() } != PATTERN {
                self.mark = place;
                return true;
            }
            place += 8;
        }
        false
    }

    fn used(&self) -> usize {
        self.start - self.mark
    }
}

/// The call that went deepest.
#[derive(Default)]
struct Deepest {
    calls: u32,
    job: &'static str,
    k: u32,
    target: u32,
    net: Vec<u8>,
}

struct Meter {
    paint: Paint,
    cover: Vec<u8>,
    scratch: Vec<u8>,
    contents: Vec<u8>,
    deepest: Deepest,
    overall: usize,
}

impl Meter {
    #[inline(never)]
    fn call(
        &mut self,
        (job, name): (Job, &'static str),
        net: &[u8],
        k: u32,
        target: u32,
    ) -> Result<usize, u8> {
        // What was done since the last call is not the library's.
        let mark = self.paint.mark;
        if self.paint.look(mark - WINDOW) {
            self.paint.again(mark);
        }
        let (cover, scratch) = (&mut self.cover, &mut self.scratch);
        let (none, contents) = (&mut [], &mut self.contents);
        let answer = match job {
            Job::Plain => kamfelu::map(net, k, target, cover, scratch),
            Job::Forward => kamfelu::map_forward(net, k, target, cover, scratch, none, contents),
            Job::ChangeOver(pairs) => {
                kamfelu::change_over(net, k, target, pairs, cover, scratch, none, contents)
            }
        };
        self.deepest.calls += 1;
        if self.paint.look(mark - WINDOW) {
            self.deepest = Deepest {
                calls: self.deepest.calls,
                job: name,
                k,
                target,
                net: net.to_vec(),
            };
        }
        answer
    }

    /// The least period and the targets around it, by each call; the net gets a section.
    fn calls(&mut self, net: &Net, k: u32) {
        let net = with_section(&encode(net), &vec![5; net.nodes()]);
        for job in JOBS {
            let answer = self.call(job, &net, k, 0);
            let least = if answer.is_ok() {
                u32::from(self.cover[0])
            } else {
                1
            };
            for target in [1, least.saturating_sub(1), least, 32] {
                self.call(job, &net, k, target).ok();
            }
        }
    }

    /// Print what a part took, and start anew.
    fn part(&mut self, name: &str) {
        let missed = self.paint.look(self.paint.low);
        let Deepest {
            calls,
            job,
            k,
            target,
            net,
        } = &self.deepest;
        let used = self.paint.used();
        print!("{name:16} {calls:7} calls  {used:9} bytes  ");
        if missed {
            println!("in a call that skipped more than the window");
        } else {
            let hex: String = net.iter().map(|byte| format!("{byte:02x}")).collect();
            println!("{job}k {k} target {target} net {hex}");
        }
        self.overall = self.overall.max(used);
        self.deepest = Deepest::default();
        let high = self.paint.high;
        self.paint.again(high);
    }
}

fn run(nets: usize, seed: u64) {
    let mut random = Random::new(seed);
    let mut meter = Meter {
        paint: Paint::new(),
        cover: vec![0; COVER_BYTES],
        scratch: vec![0; SCRATCH_BYTES],
        contents: vec![0; CONTENTS_BYTES],
        deepest: Deepest::default(),
        overall: 0,
    };
    meter.call(JOBS[0], &[], 0, 0).ok();
    meter.part("refusal 1");
    for net in [line(32, 0), line(32, 3), largest_record()] {
        (2..=6).for_each(|k| meter.calls(&net, k));
    }
    meter.part("made by hand");
    for (family, name) in FAMILIES.iter().enumerate() {
        for _ in 0..nets / 4 {
            let pins = random.within(2, 6);
            let net = of_family(family, &mut random, 32, pins);
            meter.calls(&net, 6);
            meter.calls(&net, pins as u32);
        }
        meter.part(name);
    }
    for _ in 0..nets {
        let pins = random.within(2, 6);
        let shape = Shape::any(&mut random, 32, pins);
        let net = random_net(&mut random, &shape);
        meter.calls(&net, 6);
    }
    meter.part("random");
    println!("deepest of all: {} bytes", meter.overall);
}

fn main() {
    let mut given = std::env::args()
        .skip(1)
        .map(|text| text.parse::<u64>().expect("a number"));
    let nets = given.next().unwrap_or(2000) as usize;
    let seed = given.next().unwrap_or(1);
    let builder = std::thread::Builder::new().stack_size(PAINTED + (4 << 20));
    let thread = builder.spawn(move || run(nets, seed)).expect("a thread");
    thread.join().expect("the thread ends");
}
