//! The bench program (document 02, E5) on random inputs, against the second mapper's text, and the input that
//! it is given at the gate.

use crate::batch::case;
use crate::inputs::{mostly_sectioned, some_k, some_net};
use crate::programs::printed;
use crate::tally::Tally;
use second::damage::damaged;
use second::encode::{encode, random_section, with_section};
use second::generate::{random_net, Shape};
use second::{programs, Answer, Random};

/// k, the net's length, the net and the bytes behind it.
pub fn input(k: u8, net: &[u8], behind: &[u8]) -> Vec<u8> {
    [&case(k, net)[..], behind].concat()
}

/// The second mapper's text.
pub fn expected(given: &[u8]) -> String {
    String::from_utf8(programs::bench(given)).expect("text")
}

/// A net of 32 gates with registers on half of its pins, and a section.
pub fn of_32_gates(random: &mut Random) -> Vec<u8> {
    let shape = Shape {
        inputs: (16, 16),
        gates: (32, 32),
        outputs: (8, 16),
        pins: (1, 6),
        count: 3,
        registers: 50,
        back: 20,
        twin: 5,
        input: 20,
    };
    let net = random_net(random, &shape);
    with_section(&encode(&net), &random_section(net.nodes(), random))
}

fn some_bytes(random: &mut Random, number: usize) -> Vec<u8> {
    (0..number).map(|_| random.byte()).collect()
}

/// The stored input of the gate: a net of 32 gates, 300 steps and a lone last byte.
pub fn stored() -> Vec<u8> {
    let mut random = Random::new(1);
    let net = of_32_gates(&mut random);
    let behind = some_bytes(&mut random, 2 * 300 + 1);
    input(6, &net, &behind)
}

/// Mostly a net with a section, and up to 40 steps; some inputs are cut off or damaged.
fn some_input(random: &mut Random) -> Vec<u8> {
    let (net, pins) = some_net(random);
    let net = mostly_sectioned(random, net);
    let k = some_k(random, pins) as u8;
    let bytes = 2 * random.pick(&[0, 1, 2, 5, 10, 40]) + random.below(2);
    let mut given = input(k, &net, &some_bytes(random, bytes));
    match random.below(20) {
        0 => given.truncate(random.below(given.len())),
        1 => given = damaged(random, &given),
        2 => given[random.within(1, 2)] = random.byte(),
        _ => {}
    }
    given
}

/// The program on a random input; its steps are counted, or its refusal.
pub fn random_bench(tally: &mut Tally, random: &mut Random) {
    let given = some_input(random);
    let expected = expected(&given);
    tally.count(match expected.strip_prefix("refused ") {
        Some(number) => Answer::Refused(number.trim_end().parse().expect("a number")),
        None => Answer::Done(expected.lines().count() as u32),
    });
    let text = printed("bench", &given);
    tally.check(text == expected, || {
        format!("bench, input {given:02x?}: {text}, not {expected}")
    });
}
