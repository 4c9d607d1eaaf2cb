//! Times of the library's align and of a plain double loop in Rust on the same captures, in
//! microseconds. Each is timed in turn 200 times and the least time counts; the captures are in
//! the caches. Build with the profile `timing`.

use second::align::plain;
use second::Random;
use std::hint::black_box;
use std::time::Instant;

const WORDS: usize = 4096;

type Job = fn(&[u16], &[u16]) -> Result<Option<u16>, u8>;

/// A call's answer and its time.
fn timed(job: Job, first: &[u16], second: &[u16]) -> (Result<Option<u16>, u8>, f64) {
    let start = Instant::now();
    let answer = black_box(job(black_box(first), black_box(second)));
    (answer, start.elapsed().as_secs_f64() * 1e6)
}

fn row(name: &str, first: &[u16], second: &[u16]) {
    let mut least = [f64::MAX; 2];
    let mut answers = [Ok(None); 2];
    for _ in 0..200 {
        for (at, job) in [kamfelu::align as Job, plain].into_iter().enumerate() {
            let (answer, time) = timed(job, first, second);
            answers[at] = answer;
            least[at] = least[at].min(time);
        }
    }
    assert_eq!(answers[0], answers[1]);
    let told = match answers[0] {
        Ok(Some(shift)) => shift.to_string(),
        Ok(None) => "none".to_string(),
        Err(number) => format!("refused {number}"),
    };
    let times = least.map(|time| format!("{time:10.2}")).join(" ");
    println!("{name:44} {told:>5} {times} {:7.2}", least[1] / least[0]);
}

fn main() {
    let mut random = Random::new(1);
    let noise: Vec<u16> = (0..3 * WORDS).map(|_| random.word() as u16).collect();
    let flat = vec![7; WORDS];
    let mut late = flat.clone();
    late[WORDS - 1] = 8;
    let mut middle = flat.clone();
    middle[WORDS / 2 - 1] = 8;
    println!("captures of {WORDS} words, times in microseconds\n");
    println!(
        "{:44} {:>5} {:>10} {:>10} {:>7}",
        "", "shift", "align", "plain loop", "ratio"
    );
    row("each shift differs in its last step", &late, &flat);
    row("each shift differs in step 2,047", &flat, &middle);
    row("all words alike", &flat, &flat);
    row(
        "random, the second begun 255 steps later",
        &noise[..WORDS],
        &noise[255..255 + WORDS],
    );
    row("random, two units", &noise[..WORDS], &noise[2 * WORDS..]);
}
