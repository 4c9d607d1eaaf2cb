//! Two captures of one unit (document 02, E10), by common beginnings: at each place of the first, how
//! many words go on there as the second begins.

pub const MOST_WORDS: usize = 4096;
pub const LEAST_OVERLAP: usize = 16;
pub const MOST_SHIFT: usize = 255;

/// How long the text at each place goes on as the text itself begins (the Z-function).
fn beginnings<T: PartialEq>(text: &[T]) -> Vec<usize> {
    let mut all = vec![text.len(); text.len()];
    // The part that reaches furthest and begins as the text does.
    let (mut start, mut end) = (0, 0);
    for place in 1..text.len() {
        let known = if place < end {
            all[place - start].min(end - place)
        } else {
            0
        };
        let more = text[known..].iter().zip(&text[place + known..]);
        all[place] = known + more.take_while(|(one, other)| one == other).count();
        if place + all[place] > end {
            (start, end) = (place, place + all[place]);
        }
    }
    all
}

/// The smallest shift of the second that fits, none, or the refusal's number.
pub fn align(first: &[u16], second: &[u16]) -> Result<Option<u16>, u8> {
    if first.len() > MOST_WORDS || second.len() > MOST_WORDS {
        return Err(23);
    }
    // The second, a mark that is no word, and the first.
    let words = |capture: &[u16]| capture.iter().copied().map(Some).collect::<Vec<_>>();
    let same = beginnings(&[words(second), vec![None], words(first)].concat());
    let fits = |shift: &usize| {
        let steps = second.len().min(first.len() - shift);
        steps >= LEAST_OVERLAP && same[second.len() + 1 + shift] >= steps
    };
    let most = (MOST_SHIFT + 1).min(first.len());
    Ok((0..most).find(fits).map(|shift| shift as u16))
}

/// The same by a plain double loop, for tests and times.
pub fn plain(first: &[u16], second: &[u16]) -> Result<Option<u16>, u8> {
    if first.len() > MOST_WORDS || second.len() > MOST_WORDS {
        return Err(23);
    }
    for shift in 0..=MOST_SHIFT {
        let (mut steps, mut agree) = (0, true);
        while steps < second.len() && steps + shift < first.len() {
            if second[steps] != first[steps + shift] {
                agree = false;
                break;
            }
            steps += 1;
        }
        if agree && steps >= LEAST_OVERLAP {
            return Ok(Some(shift as u16));
        }
    }
    Ok(None)
}
