//! The bench run (document 02, E5): the section of a net's record, runs by hand, against the sentences that
//! define a run, against random runs, and what the program prints for whole and broken inputs.

mod common;

use common::told::{pairs, Told};
use common::{map, mark, net_a, net_b, net_bytes, net_c, GateText, AND, SAME};
use second::damage::damaged;
use second::encode::{encode, encode_with_holes, random_section, with_section};
use second::generate::{random_net, wild_net, Shape};
use second::net::{MOST_PAST, SECTION_BIT};
use second::run::Run;
use second::{
    check_net, parse_net, parse_with_section, programs, Bench, Net, Pin, Random, Section,
};

const NOT: u64 = 1;
const XOR: u64 = 6;

/// k, the net's length, the net, then what follows.
fn input(k: u8, net: &[u8], behind: &[u8]) -> Vec<u8> {
    let length = u16::try_from(net.len()).expect("a length").to_le_bytes();
    [&[k], &length[..], net, behind].concat()
}

fn printed(given: &[u8]) -> String {
    String::from_utf8(programs::bench(given)).expect("text")
}

fn bench(k: u8, net: &[u8], pairs: &[u8]) -> String {
    printed(&input(k, net, pairs))
}

/// The refusal of a record that may have a section, 0 for none.
fn number(bytes: &[u8], k: u32) -> u8 {
    parse_with_section(bytes, k).err().unwrap_or(0)
}

/// Net C and a section: both inputs were 1, gate 2 was 0.
fn c() -> Vec<u8> {
    with_section(&net_c(), &[1, 1, 0])
}

#[test]
fn c_by_hand() {
    // Gate 2 at step 0 is and(1, 1), not its section bit.
    assert_eq!(bench(2, &c(), &[2, 0]), "1\n");
    // One step and a lone byte; with a second byte it is a step, whose gate reads inputs 0 and 1.
    assert_eq!(bench(2, &c(), &[2, 0, 9]), "1\n");
    assert_eq!(bench(2, &c(), &[2, 0, 9, 0]), "1\n0\n");
    assert_eq!(bench(2, &c(), &[3, 0, 9, 0]), "1\n1\n");
    assert_eq!(bench(2, &c(), &[]), "");
    assert_eq!(bench(2, &c(), &[2]), "");
    // A second output reads input 0 through 2: its values at the steps -2, -1 and 0.
    let two = net_bytes(2, &[(&[(0, 1), (1, 1)], AND)], &[(2, 0), (0, 2)]);
    let two = with_section(&two, &[1, 3, 7]);
    assert_eq!(bench(2, &two, &pairs(&[3, 3, 0])), "10\n11\n11\n");
}

#[test]
fn a_counts_agreements() {
    // 2 = and(0, 1), 4 = not(xor(2, 4:1)): with gate 4 at 0 before step 0.
    let a = with_section(&net_a(), &[0, 0, 7, 7, 0]);
    assert_eq!(
        bench(2, &a, &pairs(&[0, 1, 2, 3, 3, 0])),
        "1\n0\n1\n1\n1\n0\n"
    );
    // Bit 0 of gate 4's byte is all that counts.
    for byte in 0..=MOST_PAST {
        let a = with_section(&net_a(), &[0, 0, 0, 0, byte]);
        let first = if byte & 1 == 0 { "1\n" } else { "0\n" };
        assert_eq!(bench(2, &a, &[0, 0]), first);
    }
}

/// Outputs that read an input and a gate through 1 to 3 registers: bit 0 is one step back, bit 2 three.
#[test]
fn the_order_of_the_section_bits() {
    let outputs: Vec<(usize, u32)> = (0..2).flat_map(|u| (0..4).map(move |w| (u, w))).collect();
    let net = net_bytes(1, &[(&[(0, 0)], NOT)], &outputs);
    let net = with_section(&net, &[0b001, 0b100]);
    let text = bench(2, &net, &pairs(&[0, 1, 0, 0, 0]));
    // Input: 0 0 1 before step 0, then 0 1 0 0 0. Gate: 1 0 0 before, then 1 0 1 1 1.
    assert_eq!(text, "01001001\n10100100\n01011010\n00101101\n00011110\n");
}

/// Gates whose sections contradict their tables follow the tables from step 0 on.
#[test]
fn a_section_need_not_obey_the_tables() {
    // Gate 1 = not(0), gate 2 = 1:1, gate 3 = 2:3.
    let gates: [GateText; 3] = [(&[(0, 0)], NOT), (&[(1, 1)], SAME), (&[(2, 3)], SAME)];
    let net = net_bytes(1, &gates, &[(1, 0), (2, 0), (3, 0)]);
    let net = with_section(&net, &[0b111, 0b111, 0b010, 0b111]);
    // Gate 1 is 1 while the input is 0; gate 2 one step later, from 1; gate 3 three after that, from 0 1 0.
    let text = bench(2, &net, &pairs(&[1, 0, 0, 1, 1]));
    assert_eq!(text, "010\n101\n110\n011\n000\n");
}

#[test]
fn inputs_in_their_bits() {
    // 16 inputs, each with an output; one gate, so that there is one.
    let outputs: Vec<(usize, u32)> = (0..15).map(|i| (i, 0)).chain([(16, 0)]).collect();
    let net = net_bytes(16, &[(&[(15, 0)], SAME)], &outputs);
    let net = with_section(&net, &[0; 17]);
    let line = |inputs: u16| {
        let bit = |i: u16| if inputs >> i & 1 == 1 { '1' } else { '0' };
        (0..16).map(bit).collect::<String>() + "\n"
    };
    for inputs in [0u16, 1, 2, 0x80, 0x100, 0x8000, 0x1234, 0xffff] {
        assert_eq!(bench(2, &net, &inputs.to_le_bytes()), line(inputs));
    }
    // Bits above the last input do nothing.
    for high in [0, 4, 0xfc, 0xff] {
        assert_eq!(
            bench(2, &c(), &[3 | high, high, high, 0xff]),
            bench(2, &c(), &[3, 0, 0, 0])
        );
    }
}

#[test]
fn sections_of_records() {
    let net = net_c();
    let read = |section: &[u8]| number(&with_section(&net, section), 2);
    assert_eq!(read(&[0, 1, 7]), 0);
    let (with, section) = parse_with_section(&c(), 2).expect("a net");
    assert_eq!(Ok(with), parse_net(&net, 2));
    assert_eq!(section, Some(vec![1, 1, 0]));
    assert_eq!(
        parse_with_section(&net, 2),
        Ok((parse_net(&net, 2).unwrap(), None))
    );
    // Too few, above 7, too many; the first met counts.
    assert_eq!((read(&[]), read(&[0]), read(&[7, 7])), (4, 4, 4));
    for byte in [8, 9, 16, 128, 255] {
        assert_eq!(read(&[byte]), 6);
        assert_eq!(read(&[0, 0, byte]), 6);
        assert_eq!(read(&[0, 0, byte, 0]), 6);
        assert_eq!(read(&[0, 0, 0, byte]), 8);
    }
    assert_eq!(read(&[0, 0, 0, 0]), 8);
    // Without the bit a section is too many bytes.
    assert_eq!(number(&[&net[..], &[1, 1, 0]].concat(), 2), 8);
    // Range tests read I without the bit; no other bit is left out.
    for (first, told) in [(0x80, 5), (0x81, 4), (0x90, 4), (0x91, 5), (0xff, 5)] {
        assert_eq!(number(&[first], 2), told);
    }
    for first in [0x40, 0x41, 0x50, 0xc0, 0xc1, 0xd0, 0x11, 0] {
        assert_eq!(number(&[first], 2), 5);
    }
    // Each early end of a record with a section, and each byte of it set to each value.
    let whole = c();
    for end in 0..whole.len() {
        assert_eq!(number(&whole[..end], 2), 4);
    }
    for (at, byte) in (whole.len() - 3..whole.len()).flat_map(|at| (0..=255).map(move |b| (at, b)))
    {
        let mut bytes = whole.clone();
        bytes[at] = byte;
        assert_eq!(number(&bytes, 2), if byte > 7 { 6 } else { 0 });
    }
}

/// The longest record has 803 bytes, 755 without the section.
#[test]
fn the_longest_record() {
    let pins: Vec<(usize, u32)> = (0..6).map(|i| (i, 3)).collect();
    let gates: Vec<GateText> = (0..32).map(|_| (&pins[..], u64::MAX)).collect();
    let outputs: Vec<(usize, u32)> = (32..48).map(|i| (i, 3)).collect();
    let net = net_bytes(16, &gates, &outputs);
    let with = with_section(&net, &[7; 48]);
    assert_eq!((net.len(), with.len()), (755, 803));
    assert_eq!((number(&net, 6), number(&with, 6)), (0, 0));
    assert_eq!(bench(6, &with, &[0, 0]), "refused 11\n");
}

/// Map and mark answer as without the section.
#[test]
fn a_section_changes_no_cover() {
    let mut random = Random::new(71);
    let record = [2, 2, 2, 2, 0, 0, 1, 8, 4, 2, 2, 2, 4, 1, 0, 9];
    for round in 0..2000 {
        let shape = Shape::any(&mut random, 8, 4);
        let net = match round % 4 {
            0 => wild_net(&mut random, &shape),
            1 => parse_net(&net_a(), 6).expect("net A"),
            _ => random_net(&mut random, &shape),
        };
        let k = random.within(2, 6) as u32;
        let bytes = encode_with_holes(&net, &mut random);
        let section = random_section(net.nodes(), &mut random);
        let with = with_section(&bytes, &section);
        let read = parse_with_section(&with, k).map(|(net, _)| net);
        assert_eq!(read, parse_net(&bytes, k));
        let target = random.pick(&[0, 0, 1, 2]);
        assert_eq!(map(&with, k, target), map(&bytes, k, target));
        assert_eq!(mark(&with, k, &record), mark(&bytes, k, &record));
    }
}

fn random_steps(random: &mut Random, most: usize) -> Vec<u16> {
    let steps = random.below(most + 1);
    (0..steps).map(|_| random.word() as u16).collect()
}

/// A net of up to 32 gates that passes the checks, and a section.
fn some_net(random: &mut Random) -> (Net, Section) {
    let gates = random.pick(&[1, 3, 8, 16, 32]);
    let shape = Shape::any(random, gates, 6);
    let net = random_net(random, &shape);
    let section = random_section(net.nodes(), random);
    (net, section)
}

#[test]
fn runs_are_as_told() {
    let mut random = Random::new(72);
    for _ in 0..1500 {
        let (net, section) = some_net(&mut random);
        let steps = random_steps(&mut random, 20);
        let mut told = Told::new(&net, &section, &steps);
        let mut text = String::new();
        for step in 0..steps.len() {
            for output in &net.outputs {
                let value = told.read(output, step as i64);
                text.push(if value { '1' } else { '0' });
            }
            text.push('\n');
        }
        let bytes = with_section(&encode_with_holes(&net, &mut random), &section);
        assert_eq!(
            bench(6, &bytes, &pairs(&steps)),
            text,
            "{net:?} {section:?}"
        );
    }
}

/// From any three steps of a random run its values go on as the bench's.
#[test]
fn runs_go_on() {
    let mut random = Random::new(73);
    for _ in 0..1500 {
        let (net, _) = some_net(&mut random);
        let from = random.within(3, 12) as i64;
        let run = Run::random(&net, from as usize + 10, &mut random);
        let bit = |node, step| u8::from(run.value(node, step).expect("a step"));
        let past = |node| (0..3).map(|back| bit(node, from - 1 - back) << back).sum();
        let section: Section = (0..net.nodes()).map(past).collect();
        let mut bench = Bench::new(&net, &section);
        for step in from..from + 10 {
            let inputs = (0..net.inputs).map(|i| u16::from(bit(i, step)) << i).sum();
            let value = |output: &Pin| run.value(output.source, step - i64::from(output.count));
            let values: Option<Vec<bool>> = net.outputs.iter().map(value).collect();
            assert_eq!(Some(bench.step(inputs)), values);
        }
    }
}

#[test]
fn refusals_in_order() {
    let with = |net: &[u8], nodes: usize| with_section(net, &vec![0; nodes]);
    for k in [0, 1, 7, 8, 255] {
        assert_eq!(bench(k, &c(), &[2, 0]), "refused 1\n");
        assert_eq!(bench(k, &net_c(), &[2, 0]), "refused 1\n");
        assert_eq!(bench(k, &[], &[]), "refused 1\n");
    }
    // A net of three gates and one input: a loop, a gate from nowhere, one that leads nowhere.
    let loops = [(1, 0), (3, 0)];
    let nine: [GateText; 3] = [(&[(0, 0)], SAME), (&[(2, 0)], SAME), (&[(0, 0)], SAME)];
    let ten: [GateText; 3] = [(&[(0, 0)], SAME), (&[(2, 1)], SAME), (&[(0, 0)], SAME)];
    let eleven: [GateText; 3] = [(&[(0, 0)], SAME), (&[(1, 1)], XOR & 3), (&[(0, 0)], SAME)];
    for (gates, told) in [(nine, 9), (ten, 10), (eleven, 11)] {
        let net = net_bytes(1, &gates, &loops);
        // 9 to 11 with a section and without, so 21 comes behind them; the walk comes before.
        let refused = |number: u8| format!("refused {number}\n");
        assert_eq!(bench(2, &net, &[0, 0]), refused(told));
        assert_eq!(bench(2, &with(&net, 4), &[0, 0]), refused(told));
        assert_eq!(bench(2, &with(&net, 5), &[0, 0]), refused(8));
        assert_eq!(bench(2, &with(&net, 3), &[0, 0]), refused(4));
        assert_eq!(
            bench(2, &with_section(&net, &[0, 0, 0, 8]), &[]),
            refused(6)
        );
    }
    let bounded = net_bytes(1, &[(&[(0, 0), (0, 1), (0, 2)], 0x96)], &[(1, 0)]);
    assert_eq!(bench(2, &with(&bounded, 2), &[0, 0]), "refused 7\n");
    assert_eq!(bench(3, &with(&bounded, 2), &[0, 0]), "0\n");
    assert_eq!(bench(3, &bounded, &[0, 0]), "refused 21\n");
    for net in [net_a(), net_b(0), net_b(1), net_c()] {
        for behind in [&[][..], &[0], &[0, 0]] {
            assert_eq!(bench(2, &net, behind), "refused 21\n");
        }
    }
}

#[test]
fn broken_inputs() {
    assert_eq!(printed(&[]), "refused 1\n");
    assert_eq!(printed(&[7]), "refused 1\n");
    for given in [
        &[2][..],
        &[2, 0],
        &[2, 0, 0],
        &[2, 0, 0, 1],
        &[2, 13],
        &[2, 13, 0],
    ] {
        assert_eq!(printed(given), "refused 4\n");
    }
    // Every early end: k, length, net (4 throughout), then whole steps alone.
    let whole = input(2, &c(), &[2, 0, 3, 0, 0, 0]);
    let net_end = whole.len() - 6;
    let lines = "1\n0\n1\n";
    for end in 0..=whole.len() {
        let text = match end {
            0 => "refused 1\n",
            _ if end < net_end => "refused 4\n",
            _ => &lines[..(end - net_end) / 2 * 2],
        };
        assert_eq!(printed(&whole[..end]), text, "{end}");
    }
    // A length beyond the input: the net is what is there, and there are no steps.
    let given = |length: usize, behind: &[u8]| {
        let length = (length as u16).to_le_bytes();
        [&[2], &length[..], &c(), behind].concat()
    };
    let right = c().len();
    for length in [right + 1, 300, 65_535] {
        assert_eq!(printed(&given(length, &[])), "");
    }
    // A length that is too short or too long for the net.
    assert_eq!(printed(&given(right - 1, &[2, 0])), "refused 4\n");
    assert_eq!(printed(&given(right, &[2, 0])), "1\n");
    assert_eq!(printed(&given(right + 1, &[2, 0])), "refused 8\n");
}

/// 65,535 steps are run, and no more.
#[test]
fn the_last_step() {
    let net = with_section(&net_bytes(1, &[(&[(1, 1)], NOT)], &[(1, 0)]), &[0, 0]);
    assert_eq!(bench(2, &net, &[0, 0]), "refused 10\n");
    let net = net_bytes(1, &[(&[(0, 0), (1, 1)], XOR)], &[(1, 0)]);
    let net = with_section(&net, &[0, 0]);
    let most = 65_535;
    for (steps, over, lines) in [
        (most - 1, 0, most - 1),
        (most - 1, 1, most - 1),
        (most, 0, most),
        (most, 1, most),
        (most + 1, 0, most),
        (most + 1, 1, most),
        (3 * most, 0, most),
    ] {
        let bytes = [[1, 0].repeat(steps), vec![1; over]].concat();
        let text = bench(2, &net, &bytes);
        assert_eq!(text, "1\n0\n".repeat(most / 2 + 1)[..2 * lines]);
    }
}

/// What is printed for damaged inputs: the refusals of the record, of the net, 21, or lines.
#[test]
fn damaged_inputs() {
    let mut random = Random::new(74);
    let mut seen = [0; 22];
    for _ in 0..20_000 {
        let gates = random.within(1, 6);
        let shape = Shape::any(&mut random, gates, 3);
        let net = match random.below(4) {
            0 => wild_net(&mut random, &shape),
            _ => random_net(&mut random, &shape),
        };
        let mut bytes = encode(&net);
        if random.chance(80) {
            bytes = with_section(&bytes, &random_section(net.nodes(), &mut random));
        }
        if random.chance(60) {
            bytes = damaged(&mut random, &bytes);
        }
        let behind = pairs(&random_steps(&mut random, 4));
        let mut given = input(random.pick(&[2, 3, 3, 3]), &bytes, &behind);
        if random.chance(30) {
            given = damaged(&mut random, &given);
        }
        let text = printed(&given);
        let k = u32::from(given.first().copied().unwrap_or(0));
        match text.strip_prefix("refused ") {
            Some(told) => {
                let told: usize = told.trim_end().parse().expect("a number");
                seen[told] += 1;
                assert!(told == 1 || (4..=11).contains(&told) || told == 21);
            }
            None => {
                seen[0] += 1;
                let end = 3 + usize::from(u16::from_le_bytes([given[1], given[2]]));
                let end = end.min(given.len());
                let (net, section) = parse_with_section(&given[3..end], k).expect("a net");
                assert!(check_net(&net).is_ok() && section.is_some());
                assert_eq!(given[3] & SECTION_BIT, SECTION_BIT);
                let width = net.outputs.len();
                assert!(text.lines().all(|line| line.len() == width));
                assert_eq!(text.lines().count(), (given.len() - end) / 2);
            }
        }
    }
    for told in (0..=21).filter(|told| ![2, 3].contains(told) && !(12..=20).contains(told)) {
        assert!(seen[told] > 20, "{told}: {seen:?}");
    }
}
