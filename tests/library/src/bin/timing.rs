//! Times of the library's map, plain and forward, and mark and of the second mapper on the
//! same nets, in microseconds, and the periods of ABC's `&sif` where it is installed.
//!
//! `timing [nets] [seed]`. Each call is timed three times and the least time counts.
//! The areas are full of old bytes before a call; a call clears its scratch, and that is
//! in the time. Build with the profile `timing`.

use library::abc;
use library::nets::{of_family, real, FAMILIES};
use second::contents::CONTENTS_BYTES;
use second::encode::{encode, with_section};
use second::generate::{random_net, Shape};
use second::jobs::{COVER_BYTES, LONG, SCRATCH_BYTES};
use second::{Answer, Gate, Job, Limits, Mode, Net, Random};
use std::cmp::Ordering;
use std::collections::BTreeSet;
use std::time::{Duration, Instant};

const STACK_BYTES: usize = 64 << 20;

/// Where the second mapper gives up on a net.
const LIMITS: Limits = Limits {
    cuts: 50_000,
    steps: 1_000_000,
};

/// The second mapper gets no more nets of a part after this time.
const PATIENCE: Duration = Duration::from_secs(20);

/// Sum, number and largest of some times.
#[derive(Clone, Copy, Default)]
struct Times {
    sum: Duration,
    number: u32,
    most: Duration,
}

fn micros(time: Duration) -> f64 {
    time.as_secs_f64() * 1e6
}

impl Times {
    fn add(&mut self, time: Duration) {
        self.sum += time;
        self.number += 1;
        self.most = self.most.max(time);
    }

    /// Number, average and largest, in columns.
    fn text(&self) -> String {
        let average = micros(self.sum) / f64::from(self.number.max(1));
        format!(
            "{:6} {average:10.1} {:10.1}",
            self.number,
            micros(self.most)
        )
    }
}

const COLUMNS: &str = " calls    average    largest";

struct Areas {
    cover: Vec<u8>,
    scratch: Vec<u8>,
    contents: Vec<u8>,
}

impl Areas {
    /// A call's answer and its least time of three.
    fn best<T>(&mut self, call: impl Fn(&mut Areas) -> T) -> (T, Duration) {
        let mut timed = || {
            self.scratch.fill(0xa5);
            let start = Instant::now();
            let answer = call(self);
            (answer, start.elapsed())
        };
        let tries = [timed(), timed(), timed()];
        let least = tries.into_iter().min_by_key(|(_, time)| *time);
        least.expect("three tries")
    }

    /// The library's answer and time; the record is in the cover area.
    fn map(&mut self, net: &[u8], k: u32, target: u32) -> (Result<usize, u8>, Duration) {
        self.best(|areas| kamfelu::map(net, k, target, &mut areas.cover, &mut areas.scratch))
    }

    /// Forward map, with a contents area of so many bytes.
    fn forward(
        &mut self,
        net: &[u8],
        k: u32,
        target: u32,
        contents: usize,
    ) -> (Result<usize, u8>, Duration) {
        self.best(|areas| {
            let (cover, scratch) = (&mut areas.cover, &mut areas.scratch);
            let contents = &mut areas.contents[..contents];
            kamfelu::map_forward(net, k, target, cover, scratch, &mut [], contents)
        })
    }

    /// Map of a mode, without contents.
    fn by_mode(
        &mut self,
        mode: Mode,
        net: &[u8],
        k: u32,
        target: u32,
    ) -> (Result<usize, u8>, Duration) {
        match mode {
            Mode::Plain => self.map(net, k, target),
            Mode::Forward => self.forward(net, k, target, 0),
        }
    }

    /// The excess of a record, and the time.
    fn mark(&mut self, net: &[u8], k: u32, record: &[u8]) -> (Result<usize, u8>, Duration) {
        self.best(|areas| kamfelu::mark(net, k, record, &mut areas.scratch))
    }

    /// The second mapper's answer and time.
    fn second(&mut self, net: &[u8], k: u32) -> (Answer, Duration) {
        self.best(|areas| {
            let areas = second::Areas {
                cover: &mut areas.cover,
                scratch: &mut areas.scratch,
                loader: &mut [],
                contents: &mut [],
            };
            second::map_within(LONG, Job::Plain, LIMITS, net, k, 0, areas)
        })
    }
}

/// A net's bytes and k.
type Case = (Vec<u8>, u32);

/// The columns of a row.
const NAMES: [&str; 9] = [
    "map, target 0",
    "map, the least period as target",
    "map, one below (answer 12)",
    "mark of map's record",
    "map, target 0, where second finished",
    "second mapper, target 0",
    "forward map, target 0",
    "forward map, target 0, with contents",
    "forward map, one below (answer 22)",
];

/// Times over some nets, and the nets on which the second mapper gave up, those it was
/// not asked for time, other answers than those expected, and least forward periods above
/// the least one.
#[derive(Default)]
struct Row {
    times: [Times; 9],
    gave_up: u32,
    not_asked: u32,
    others: u32,
    later: u32,
}

/// The nets come in an order that mixes sizes.
fn measure(areas: &mut Areas, cases: &[Case]) -> Row {
    let mut row = Row::default();
    let start = Instant::now();
    for (net, k) in cases {
        let (answer, time) = areas.map(net, *k, 0);
        row.times[0].add(time);
        let Ok(length) = answer else {
            row.others += 1;
            continue;
        };
        let record = areas.cover[..length].to_vec();
        let least = u32::from(record[0]);
        let (again, target) = areas.map(net, *k, least);
        row.times[1].add(target);
        row.others += u32::from(again != answer);
        if least > 1 {
            let (below, time) = areas.map(net, *k, least - 1);
            row.times[2].add(time);
            row.others += u32::from(below != Err(12));
        }
        let (excess, marked) = areas.mark(net, *k, &record);
        row.times[3].add(marked);
        row.others += u32::from(excess != Ok(0));
        row.forward(areas, net, *k, least);
        if start.elapsed() > PATIENCE {
            row.not_asked += 1;
            continue;
        }
        match areas.second(net, *k) {
            (Answer::GaveUp, _) => row.gave_up += 1,
            (other, second) => {
                row.times[4].add(time);
                row.times[5].add(second);
                let same = other == Answer::Done(length as u32);
                row.others += u32::from(!same || areas.cover[..length] != record);
            }
        }
    }
    row
}

impl Row {
    /// Forward map of a net with this least period, without contents and, on the net with a section, with them.
    fn forward(&mut self, areas: &mut Areas, net: &[u8], k: u32, least: u32) {
        let (answer, time) = areas.forward(net, k, 0, 0);
        self.times[6].add(time);
        let period = u32::from(areas.cover[0]);
        self.others += u32::from(answer.is_err() || period < least);
        self.later += u32::from(period > least);
        let nodes = usize::from(net[0]) + usize::from(net[1]);
        let net = with_section(net, &vec![5; nodes]);
        let (again, time) = areas.forward(&net, k, 0, CONTENTS_BYTES);
        self.times[7].add(time);
        self.others += u32::from(again != answer);
        if period > 1 {
            let (below, time) = areas.forward(&net, k, period - 1, 0);
            self.times[8].add(time);
            self.others += u32::from(below != Err(22));
        }
    }

    fn add(&mut self, other: &Row) {
        for (times, more) in self.times.iter_mut().zip(&other.times) {
            times.sum += more.sum;
            times.number += more.number;
            times.most = times.most.max(more.most);
        }
        self.gave_up += other.gave_up;
        self.not_asked += other.not_asked;
        self.others += other.others;
        self.later += other.later;
    }

    /// One line a column.
    fn print(&self) {
        println!("{:36} {COLUMNS}", "");
        for (name, times) in NAMES.iter().zip(&self.times) {
            println!("{name:36} {}", times.text());
        }
        println!(
            "second mapper: gave up {}, not asked for time {}; other answers {}; \
             least forward periods above the least {}\n",
            self.gave_up, self.not_asked, self.others, self.later
        );
    }

    /// Averages and largest times in one line.
    fn line(&self, head: &str) {
        let shown = [0, 1, 6, 3, 5].map(|i| self.times[i].text()).join("  ");
        println!("{head}  {shown}  {:8}", self.others);
    }
}

/// The heads of lines.
fn heads(head: &str) {
    let gap = " ".repeat(head.len());
    let names = [
        "map, target 0",
        "map, least period",
        "forward, target 0",
        "mark",
        "second mapper",
    ];
    let names = names.map(|name| format!("{name:>28}")).join("  ");
    println!("{gap}  {names}");
    println!("{head}  {}   others", [COLUMNS; 5].join("  "));
}

/// Nets of 8 to 32 gates, each with every k from its most pins to 6.
fn random_cases(random: &mut Random, nets: usize) -> Vec<Case> {
    let mut cases = Vec::new();
    for _ in 0..nets {
        let gates = random.within(8, 32);
        let pins = random.within(2, 6);
        let shape = Shape {
            inputs: (4, 16),
            gates: (gates, gates),
            outputs: (1, 4),
            pins: (1, pins),
            count: 3,
            registers: random.pick(&[5, 20, 50]),
            back: random.pick(&[5, 20]),
            twin: 5,
            input: 20,
        };
        let net = encode(&random_net(random, &shape));
        cases.extend((pins as u32..=6).map(|k| (net.clone(), k)));
    }
    cases
}

/// The slowest call of a family at so many gates, over k, the least period and the targets near it, in both modes.
fn slow_family(areas: &mut Areas, random: &mut Random, family: usize, gates: usize, nets: usize) {
    let mut cases = Vec::new();
    for _ in 0..nets {
        let pins = random.within(2, 6);
        let net = encode(&of_family(family, random, gates, pins));
        cases.extend((pins as u32..=6).map(|k| (net.clone(), k)));
    }
    for (mode, name) in [
        (Mode::Plain, FAMILIES[family]),
        (Mode::Forward, "  forward"),
    ] {
        let (times, (k, target, net)) = slowest(areas, mode, &cases);
        let text = times.text();
        println!("{name:14} {gates:5} {text} at k {k}, target {target}");
        if gates == 32 {
            println!("               net {}", hex(&net));
        }
    }
}

/// The times of a mode, and k, target and net of its slowest call.
fn slowest(areas: &mut Areas, mode: Mode, cases: &[Case]) -> (Times, (u32, u32, Vec<u8>)) {
    let mut times = Times::default();
    let mut slowest = (0, 0, Vec::new());
    for (net, k) in cases {
        let (answer, time) = areas.by_mode(mode, net, *k, 0);
        let mut tried = vec![(0, time)];
        let least = match answer {
            Ok(_) => u32::from(areas.cover[0]),
            Err(_) => 1,
        };
        for target in [1, least - 1, least, 32] {
            if target > 0 {
                tried.push((target, areas.by_mode(mode, net, *k, target).1));
            }
        }
        for (target, time) in tried {
            if time > times.most {
                slowest = (*k, target, net.clone());
            }
            times.add(time);
        }
    }
    (times, slowest)
}

fn hex(bytes: &[u8]) -> String {
    bytes.iter().map(|byte| format!("{byte:02x}")).collect()
}

/// Times with the number of gates and with registers.
fn growth(areas: &mut Areas, random: &mut Random, nets: usize) {
    let cases = |random: &mut Random, gates: usize, registers: u32, count: u32, back: u32| {
        let shape = Shape {
            inputs: (4, 8),
            gates: (gates, gates),
            outputs: (1, 4),
            pins: (2, 3),
            count,
            registers,
            back,
            twin: 0,
            input: 20,
        };
        let case = |_| (encode(&random_net(random, &shape)), 4);
        (0..nets).map(case).collect::<Vec<Case>>()
    };
    println!("growth with gates, k 4");
    heads("gates");
    for gates in [4, 8, 12, 16, 20, 24, 28, 32] {
        let row = measure(areas, &cases(random, gates, 20, 2, 15));
        row.line(&format!("{gates:5}"));
    }
    println!("\ngrowth with registers, 16 gates, k 4: percent of pins with registers, most");
    println!("registers a pin, percent of pins that read back");
    heads(" % most back");
    for (registers, count, back) in [
        (0, 1, 0),
        (10, 1, 10),
        (30, 1, 10),
        (30, 2, 10),
        (30, 3, 10),
        (60, 3, 20),
        (100, 3, 20),
        (100, 3, 60),
    ] {
        let row = measure(areas, &cases(random, 16, registers, count, back));
        row.line(&format!("{registers:3} {count:3} {back:4}"));
    }
}

/// A random net for ABC, and its k. Two-pin gates are AND gates up to inversions, no two of
/// them and no two pins of one alike, so that ABC keeps them as they are.
fn abc_net(random: &mut Random, pins: usize) -> (Net, u32) {
    let gates = random.within(2, 32);
    let shape = Shape {
        inputs: (4, 8),
        gates: (gates, gates),
        outputs: (1, 4),
        pins: (2, pins),
        count: 2,
        registers: random.pick(&[5, 20, 50]),
        back: random.pick(&[5, 20]),
        twin: 0,
        input: 20,
    };
    loop {
        let mut net = random_net(random, &shape);
        let k = random.within(pins, 6) as u32;
        if pins > 2 {
            return (net, k);
        }
        let mut pairs = BTreeSet::new();
        let mut alone = |gate: &Gate| {
            let mut pair = [0, 1].map(|j| (gate.pins[j].source, gate.pins[j].count));
            pair.sort_unstable();
            pair[0] != pair[1] && pairs.insert(pair)
        };
        if net.gates.iter().all(&mut alone) {
            let tables = [1, 2, 4, 8, 7, 11, 13, 14];
            for gate in &mut net.gates {
                gate.table = random.pick(&tables);
            }
            return (net, k);
        }
    }
}

/// ABC's periods against the least ones.
fn compare_abc(areas: &mut Areas, random: &mut Random, nets: usize) {
    println!("\nABC, &sif");
    let Some(program) = abc::installed() else {
        println!("skipped: neither berkeley-abc nor abc is on the path");
        return;
    };
    for (pins, name) in [(2, "two-pin gates"), (4, "gates of up to 4 pins")] {
        let nets: Vec<(Net, u32)> = (0..nets).map(|_| abc_net(random, pins)).collect();
        let (periods, each) = match abc::periods(&program, &nets) {
            Ok(told) => told,
            Err(error) => {
                println!("skipped: {error}");
                return;
            }
        };
        let mut times = Times::default();
        // Below, at and above the least period, and no period.
        let mut counts = [0; 4];
        let mut smallest: Option<(usize, String)> = None;
        for ((net, k), period) in nets.iter().zip(periods) {
            let bytes = encode(net);
            let (answer, time) = areas.map(&bytes, *k, 0);
            answer.expect("a record");
            times.add(time);
            let least = u32::from(areas.cover[0]);
            let Some(period) = period else {
                counts[3] += 1;
                continue;
            };
            counts[match period.cmp(&least) {
                Ordering::Less => 0,
                Ordering::Equal => 1,
                Ordering::Greater => 2,
            }] += 1;
            let gates = net.gates.len();
            if period < least && smallest.as_ref().is_none_or(|(size, _)| gates < *size) {
                let hex = hex(&bytes);
                let told = format!("period {period}, least {least}, k {k}, net {hex}");
                smallest = Some((gates, told));
            }
        }
        let [below, at, above, none] = counts;
        println!(
            "{name}: below the least period {below}, at it {at}, above it {above}, none {none}"
        );
        if let Some((_, told)) = smallest {
            println!("  the smallest net with a period below: {told}");
        }
        println!("{:9} {COLUMNS}", "");
        println!("  &sif    {:6} {:10.1}", times.number, micros(each));
        println!("  map     {}", times.text());
    }
}

fn run(nets: usize, seed: u64) {
    let mut random = Random::new(seed);
    let mut areas = Areas {
        cover: vec![0; COVER_BYTES],
        scratch: vec![0; SCRATCH_BYTES],
        contents: vec![0; CONTENTS_BYTES],
    };
    println!("times in microseconds, {nets} nets, seed {seed}\n");
    let cases = random_cases(&mut random, nets);
    println!("random nets of 8 to 32 gates, by k");
    heads("k");
    let mut all = Row::default();
    for k in 2..=6 {
        let own: Vec<Case> = cases.iter().filter(|case| case.1 == k).cloned().collect();
        let row = measure(&mut areas, &own);
        row.line(&k.to_string());
        all.add(&row);
    }
    println!("\nall of these");
    all.print();
    println!("real nets of up to 32 gates, k 4 to 6");
    let own = real();
    let cases = |net: Vec<u8>| (4..=6).map(move |k| (net.clone(), k));
    measure(
        &mut areas,
        &own.into_iter().flat_map(cases).collect::<Vec<_>>(),
    )
    .print();
    println!("slow families, map and forward map alone");
    println!("               gates {COLUMNS}");
    for family in 0..FAMILIES.len() {
        for gates in [8, 16, 24, 32] {
            slow_family(&mut areas, &mut random, family, gates, nets / 10);
        }
    }
    println!();
    growth(&mut areas, &mut random, nets / 10);
    compare_abc(&mut areas, &mut random, nets);
}

fn main() {
    let mut given = std::env::args()
        .skip(1)
        .map(|text| text.parse::<u64>().expect("a number"));
    let nets = given.next().unwrap_or(1000) as usize;
    let seed = given.next().unwrap_or(1);
    let builder = std::thread::Builder::new().stack_size(STACK_BYTES);
    let thread = builder.spawn(move || run(nets, seed)).expect("a thread");
    thread.join().expect("the thread ends");
}
