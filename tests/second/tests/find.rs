//! The root lookup: answers by hand, and the second implementation against records read as covers.

use second::damage::candidate;
use second::find::find_root;
use second::generate::{random_net, Shape};
use second::{read_record, Limits, Random};

/// Net A's cover for k 2: roots 2 and 4 at places 2 and 8.
const A: [u8; 16] = [2, 2, 2, 2, 0, 0, 1, 8, 4, 2, 2, 2, 4, 1, 0, 9];

#[test]
fn by_hand() {
    assert_eq!(find_root(&A, 2), Ok(Some(2)));
    assert_eq!(find_root(&A, 4), Ok(Some(8)));
    for g in [0, 1, 3, 5, 255, 256, 65_535] {
        assert_eq!(find_root(&A, g), Ok(None), "{g}");
    }
    // The reading stops at a root: what follows it may break the layout or be missing.
    assert_eq!(find_root(&A[..9], 4), Ok(Some(8)));
    assert_eq!(find_root(&A[..9], 3), Ok(None));
    assert_eq!(find_root(&A[..9], 5), Err(19));
    assert_eq!(find_root(&A[..8], 4), Err(19));
    assert_eq!(find_root(&A[..3], 2), Ok(Some(2)));
    // Period and LUT count stand before any stop.
    assert_eq!(find_root(&[], 0), Err(19));
    assert_eq!(find_root(&[2], 0), Err(19));
    assert_eq!(find_root(&[2, 2], 0), Err(19));
    assert_eq!(find_root(&[0, 2, 2], 2), Err(19));
    assert_eq!(find_root(&[33, 2, 2], 2), Err(19));
    assert_eq!(find_root(&[2, 0, 2], 2), Err(19));
    assert_eq!(find_root(&[2, 33, 2], 2), Err(19));
    assert_eq!(find_root(&[255, 2, 2], 2), Err(19));
    // Bytes behind the last LUT are no breach, and any number may be a node.
    assert_eq!(find_root(&[A.as_slice(), &[0]].concat(), 5), Ok(None));
    assert_eq!(find_root(&[1, 1, 0, 1, 0, 255, 1], 0), Ok(Some(2)));
    assert_eq!(find_root(&[1, 1, 0, 1, 0, 255, 1], 9), Ok(None));
    // Roots rise: a root that does not is a breach before it is a stop.
    assert_eq!(find_root(&[1, 2, 7, 1, 0, 0, 1, 7], 8), Err(19));
    assert_eq!(find_root(&[1, 2, 7, 1, 0, 0, 1, 8], 8), Ok(Some(7)));
}

/// A record that keeps the layout for some net and k has a LUT of g exactly if the cover has, at the bytes that
/// begin with g.
#[test]
fn whole_records() {
    let mut random = Random::new(11);
    let limits = Limits {
        cuts: 1_000,
        steps: 20_000,
    };
    let mut kept = 0;
    for case in 0..2_000 {
        let k = 2 + case % 5;
        let shape = Shape::any(&mut random, 1 + case as usize % 12, k as usize);
        let net = random_net(&mut random, &shape);
        let Some(record) = candidate(&mut random, &net, k, limits) else {
            continue;
        };
        let Ok(cover) = read_record(&net, k, &record) else {
            continue;
        };
        kept += 1;
        for g in 0..=300 {
            let found = find_root(&record, g).expect("a record that keeps the layout");
            assert_eq!(found.is_some(), cover.lut(usize::from(g)).is_some());
            assert!(found.is_none_or(|at| u16::from(record[at]) == g));
        }
    }
    assert!(kept > 500, "{kept}");
}
