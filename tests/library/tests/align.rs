//! The library's align against the second implementation.

use kamfelu::align;
use second::align::plain;
use second::Random;
use std::collections::BTreeSet;

/// Captures of one signal: the second begun `shift` steps after the first.
fn cuts(signal: &[u16], shift: usize, lengths: (usize, usize)) -> (Vec<u16>, Vec<u16>) {
    let part = |start: usize, length: usize| signal[start..start + length].to_vec();
    (part(0, lengths.0), part(shift, lengths.1))
}

/// A signal that repeats after `period` words, of some kinds of words.
fn signal(random: &mut Random, period: usize, kinds: usize) -> Vec<u16> {
    let high = random.pick(&[0, 0x00ff, 0xff00, 0x8000]);
    let word = |_| random.below(kinds) as u16 ^ high;
    let round: Vec<u16> = (0..period).map(word).collect();
    round.iter().copied().cycle().take(8192).collect()
}

fn same(first: &[u16], second: &[u16]) -> Result<Option<u16>, u8> {
    let answer = second::align(first, second);
    let ours = align(first, second);
    assert_eq!(ours, answer, "{} and {} words", first.len(), second.len());
    answer
}

#[test]
fn by_hand() {
    let signal: Vec<u16> = (0..8192).collect();
    for shift in 0..=300 {
        let (first, second) = cuts(&signal, shift, (4096, 4096));
        let expected = u16::try_from(shift).ok().filter(|&s| s <= 255);
        assert_eq!(align(&first, &second), Ok(expected));
        // Only the second is shifted.
        let turned = Some(0).filter(|_| shift == 0);
        assert_eq!(align(&second, &first), Ok(turned));
    }
    assert_eq!(align(&signal[..4097], &signal[..16]), Err(23));
    assert_eq!(align(&[], &signal[..4097]), Err(23));
    assert_eq!(align(&signal[..4096], &[]), Ok(None));
    assert_eq!(align(&[], &[]), Ok(None));
}

/// All lengths around the limits, with shifts around theirs and signals that repeat or do not.
#[test]
fn lengths_around_the_limits() {
    let mut random = Random::new(1);
    let lengths = [
        0, 1, 2, 14, 15, 16, 17, 18, 31, 32, 33, 63, 64, 65, 79, 80, 81, 255, 256, 257, 270, 271,
        272, 273, 4095, 4096, 4097, 4098,
    ];
    let mut seen = BTreeSet::new();
    for period in [1, 2, 16, 100, 255, 256, 257, 8192] {
        let signal = signal(&mut random, period, 65_536);
        for shift in [0, 1, 15, 16, 254, 255, 256, 257] {
            for first in lengths {
                for second in lengths {
                    let (first, second) = cuts(&signal, shift, (first, second));
                    seen.insert(same(&first, &second));
                }
            }
        }
    }
    for answer in [Err(23), Ok(None), Ok(Some(0)), Ok(Some(255))] {
        assert!(seen.contains(&answer), "{answer:?} was not met");
    }
}

/// One changed word: at each place of the overlap, and behind it, for lengths around a run.
#[test]
fn one_word_differs() {
    let mut random = Random::new(2);
    let signal = signal(&mut random, 8192, 65_536);
    for (shift, length) in [(0, 16), (3, 17), (255, 64), (100, 65), (7, 129), (254, 200)] {
        for place in 0..length + 3 {
            let (mut first, second) = cuts(&signal, shift, (shift + length, length + 3));
            let mut other = second.clone();
            other[place] ^= 1 << random.below(16);
            // Behind the overlap a word is not compared.
            let expected = Some(shift as u16).filter(|_| place >= length);
            assert_eq!(same(&first, &other), Ok(expected));
            if let Some(word) = first.get_mut(shift + place) {
                *word ^= 1 << random.below(16);
            }
            assert_eq!(same(&first, &second), Ok(expected));
        }
    }
}

/// Short captures of few kinds of words, and long ones that repeat, some with a late mismatch.
#[test]
fn random_captures() {
    let mut random = Random::new(3);
    let (mut found, mut none) = (BTreeSet::new(), 0);
    for round in 0..60_000 {
        let long = round % 10 == 0;
        let (most, repeat) = if long { (4096, 400) } else { (330, 90) };
        let repeat = random.pick(&[1, 8, repeat, 600]);
        let (period, kinds) = (random.within(1, repeat), random.within(1, 4));
        let signal = signal(&mut random, period, kinds);
        let lengths = (random.within(0, most), random.within(0, most));
        let (first, mut second) = cuts(&signal, random.below(300), lengths);
        if random.chance(40) && !second.is_empty() {
            let back = 1 + random.below(second.len().min(40));
            let place = second.len() - back;
            second[place] ^= 1;
        }
        match same(&first, &second) {
            Ok(Some(shift)) => drop(found.insert(shift)),
            _ => none += 1,
        }
        if round % 50 == 0 {
            assert_eq!(align(&first, &second), plain(&first, &second));
        }
    }
    println!("{} shifts found, none {none} times", found.len());
    assert!(found.len() > 100 && none > 5000);
}
