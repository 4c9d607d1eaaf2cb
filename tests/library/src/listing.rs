//! The listing program on random nets, against the second mapper's text.

use crate::compare::LIMITS;
use crate::inputs::{some_k, some_net};
use crate::programs::printed;
use crate::tally::Tally;
use second::listing::{listing_within, GAVE_UP};
use second::Random;

/// The program on a random net.
pub fn random_listing(tally: &mut Tally, random: &mut Random) {
    let (net, pins) = some_net(random);
    let k = some_k(random, pins) as u8;
    let target = random.pick(&[0, 0, 1, 2, 3, 32, 33]);
    let expected = listing_within(LIMITS, k.into(), target.into(), &net);
    if expected == GAVE_UP {
        tally.skipped += 1;
        return;
    }
    let text = printed("listing", &[&[k, target], &net[..]].concat());
    tally.pairs += 1;
    tally.check(text == expected, || {
        format!("listing, k {k} target {target} net {net:02x?}: {text}, not {expected}")
    });
}
