//! Two captures: the second implementation against a plain double loop and answers by hand.

use second::align::{align, plain};
use second::Random;

/// Words 0, 1, 2 and so on from a start.
fn rising(start: u16, count: u16) -> Vec<u16> {
    (start..start + count).collect()
}

#[test]
fn by_hand() {
    let first = rising(0, 400);
    assert_eq!(align(&first, &first), Ok(Some(0)));
    assert_eq!(align(&first, &rising(7, 400)), Ok(Some(7)));
    assert_eq!(align(&first, &rising(255, 400)), Ok(Some(255)));
    assert_eq!(align(&first, &rising(256, 400)), Ok(None));
    // Only the second is shifted.
    assert_eq!(align(&rising(7, 400), &first), Ok(None));
    // The second lies within the first, and a mismatch behind its end does not count.
    assert_eq!(align(&first, &rising(20, 16)), Ok(Some(20)));
    assert_eq!(align(&first, &rising(20, 15)), Ok(None));
    // The last words of the first are the overlap.
    assert_eq!(align(&rising(0, 26), &rising(10, 400)), Ok(Some(10)));
    assert_eq!(align(&rising(0, 25), &rising(10, 400)), Ok(None));
    assert_eq!(align(&[], &[]), Ok(None));
    assert_eq!(align(&[5; 4096], &[5; 4096]), Ok(Some(0)));
    assert_eq!(align(&[5; 4097], &[5; 16]), Err(23));
    assert_eq!(align(&[], &[5; 4097]), Err(23));
}

#[test]
fn as_a_plain_loop() {
    let mut random = Random::new(1);
    let mut seen = [0; 2];
    for _ in 0..20_000 {
        let kinds = random.within(1, 3);
        let mut capture = |most| -> Vec<u16> {
            let length = random.within(0, most);
            (0..length).map(|_| random.below(kinds) as u16).collect()
        };
        let (first, second) = (capture(300), capture(40));
        let answer = plain(&first, &second);
        seen[usize::from(answer == Ok(None))] += 1;
        assert_eq!(align(&first, &second), answer, "{first:?} {second:?}");
    }
    assert!(seen.iter().all(|&n| n > 1000), "{seen:?}");
}
