//! What was compared, counted; random tests on two threads.

use second::Answer;
use std::collections::BTreeMap;
use std::thread::Builder;

const THREADS: u64 = 2;

fn setting(name: &str, default: u64) -> u64 {
    match std::env::var(name) {
        Ok(text) => text.parse().expect("a number"),
        Err(_) => default,
    }
}

pub fn seed() -> u64 {
    setting("KAMFELU_SEED", 1)
}

/// The number of random pairs.
pub fn cases() -> u64 {
    setting("KAMFELU_CASES", 120_000)
}

/// What was compared.
#[derive(Default)]
pub struct Tally {
    pub pairs: u64,
    /// The second mapper gave up.
    pub skipped: u64,
    /// Answers by refusal, 0 where there was none.
    pub seen: [u64; 23],
    /// Answers without refusal by length or excess.
    pub done: BTreeMap<u32, u64>,
    /// Pairs whose least period is above 1.
    pub deep: u64,
    pub differences: u64,
    pub first: Vec<String>,
}

impl Tally {
    /// Count an expected answer.
    pub fn count(&mut self, expected: Answer) {
        match expected {
            Answer::Done(number) => {
                self.seen[0] += 1;
                *self.done.entry(number).or_default() += 1;
            }
            Answer::Refused(number) => self.seen[usize::from(number)] += 1,
            Answer::GaveUp => {
                self.skipped += 1;
                return;
            }
        }
        self.pairs += 1;
    }

    pub fn check(&mut self, same: bool, told: impl Fn() -> String) {
        if !same {
            self.differences += 1;
            if self.first.len() < 5 {
                self.first.push(told());
            }
        }
    }

    pub fn add(&mut self, other: Tally) {
        self.pairs += other.pairs;
        self.skipped += other.skipped;
        for (sum, n) in self.seen.iter_mut().zip(other.seen) {
            *sum += n;
        }
        for (number, n) in other.done {
            *self.done.entry(number).or_default() += n;
        }
        self.deep += other.deep;
        self.differences += other.differences;
        self.first.extend(other.first);
    }

    pub fn print(&self) {
        println!(
            "{} pairs, {} skipped, {} least periods above 1, answers by refusal {:?}, {} differences",
            self.pairs, self.skipped, self.deep, self.seen, self.differences
        );
    }

    pub fn fail_on_differences(&self) {
        let first = self.first.join("\n");
        assert!(
            self.differences == 0,
            "{} differences:\n{first}",
            self.differences
        );
    }
}

/// Enough for the second mapper.
const STACK: usize = 8 << 20;

/// Two threads; the work gets its number and how many there
/// are. What they give, in order.
pub fn each_thread<T: Send>(work: impl Fn(u64, u64) -> T + Sync) -> Vec<T> {
    std::thread::scope(|scope| {
        let work = &work;
        let start = |number| {
            let builder = Builder::new().stack_size(STACK);
            builder
                .spawn_scoped(scope, move || work(number, THREADS))
                .expect("a thread")
        };
        let threads: Vec<_> = (0..THREADS).map(start).collect();
        let end = |thread: std::thread::ScopedJoinHandle<T>| thread.join();
        let ended = threads.into_iter().map(end);
        ended.map(|told| told.expect("the thread ends")).collect()
    })
}

/// The same with one tally for all.
pub fn on_threads(work: impl Fn(u64, u64) -> Tally + Sync) -> Tally {
    let mut all = Tally::default();
    for tally in each_thread(work) {
        all.add(tally);
    }
    all
}
