//! Nets made by hand: document 01's, and families that need many sweeps or large cones.

use second::encode::{encode, random_section, with_section};
use second::generate::{random_net, Shape};
use second::rare;
use second::{lut_table, Cover, Gate, Lut, Net, NodeCopy, Pin, Random};

pub const AND: u64 = 8;
pub const NAND: u64 = 7;

/// A pin or an output: its source and its count.
pub type Read = (usize, u32);

/// Inputs, each gate's pins and table, outputs.
pub fn net(inputs: usize, gates: &[(&[Read], u64)], outputs: &[Read]) -> Net {
    let reads = |list: &[Read]| -> Vec<Pin> {
        let pin = |&(source, count): &Read| Pin { source, count };
        list.iter().map(pin).collect()
    };
    let gate = |&(pins, table): &(&[Read], u64)| Gate {
        pins: reads(pins),
        table,
    };
    Net {
        inputs,
        gates: gates.iter().map(gate).collect(),
        outputs: reads(outputs),
    }
}

/// Net A as document 01 gives its bytes.
pub fn net_a() -> Vec<u8> {
    vec![
        0x02, 0x03, 0x01, 0x03, 0x00, 0x00, 0x01, 0x08, 0x03, 0x02, 0x02, 0x04, 0x01, 0x06, 0x01,
        0x00, 0x03, 0x01, 0x00, 0x04,
    ]
}

/// Net B; its output reads gate 4 through `count` registers.
pub fn net_b(count: u32) -> Vec<u8> {
    let gates: [(&[Read], u64); 2] = [(&[(0, 0), (1, 0)], AND), (&[(3, 0), (2, 0)], AND)];
    encode(&net(3, &gates, &[(4, count)]))
}

pub fn net_c() -> Vec<u8> {
    encode(&net(2, &[(&[(0, 1), (1, 1)], AND)], &[(2, 0)]))
}

/// A line of gates with one pin each, of so many registers.
pub fn line(gates: usize, count: u32) -> Net {
    let pins: Vec<[Read; 1]> = (0..gates).map(|i| [(i, count)]).collect();
    let gates: Vec<(&[Read], u64)> = pins.iter().map(|pins| (&pins[..], 2)).collect();
    net(1, &gates, &[(gates.len(), 0)])
}

/// A line of AND gates: each reads the one before and an input of its own through
/// `count` registers. The output has `at_output` registers.
pub fn and_line(gates: usize, count: u32, at_output: u32) -> Net {
    let inputs = gates + 1;
    let mut pins = vec![[(0, count), (1, count)]];
    for i in 1..gates {
        pins.push([(inputs + i - 1, 0), (i + 1, count)]);
    }
    let gates: Vec<(&[Read], u64)> = pins.iter().map(|pins| (&pins[..], AND)).collect();
    net(inputs, &gates, &[(inputs + gates.len() - 1, at_output)])
}

/// Gates in a ring through one register, each reading the one before it and the one at
/// half its place, the first an input: with the leaves, which come too, each gate of the
/// ring has a cone of nearly five copies of every gate. The leaves' nodes are the
/// lowest, but for the last leaf's.
pub fn ring_from_input(gates: usize) -> (Net, Vec<NodeCopy>) {
    let mut pins: Vec<[Read; 2]> = vec![[(0, 0), (gates, 1)]];
    pins.extend((2..=gates).map(|i| [(i - 1, 0), (i / 2, 0)]));
    let gates: Vec<(&[Read], u64)> = pins.iter().map(|pins| (&pins[..], NAND)).collect();
    let last = gates.len();
    (net(1, &gates, &[(last, 0)]), six_leaves(0, last))
}

/// The same ring, but the first gate reads the input through one gate more, which is the
/// last and has the register: the leaves' nodes are the highest.
pub fn ring_from_last(gates: usize) -> (Net, Vec<NodeCopy>) {
    let mut pins: Vec<Vec<Read>> = vec![vec![(gates, 0), (gates - 1, 1)]];
    pins.extend((2..gates).map(|i| vec![(i - 1, 0), (i / 2, 0)]));
    pins.push(vec![(0, 1)]);
    let table = |pins: &Vec<Read>| if pins.len() == 1 { 2 } else { NAND };
    let gates: Vec<(&[Read], u64)> = pins.iter().map(|own| (&own[..], table(own))).collect();
    let last = gates.len();
    (net(1, &gates, &[(last - 1, 0)]), six_leaves(last, last - 1))
}

/// One node none to four registers back, and another five back.
fn six_leaves(node: usize, other: usize) -> Vec<NodeCopy> {
    let mut leaves: Vec<NodeCopy> = (0..5).map(|d| NodeCopy { node, d }).collect();
    leaves.push(NodeCopy { node: other, d: 5 });
    leaves.sort_unstable();
    leaves
}

/// A cover of such a ring: each gate of the ring with these leaves, and a gate that a
/// leaf reads outside it with its own pin. Lags are 0, the latter's is minus its pin's
/// registers; the period 1 is met.
pub fn ring_cover(net: &Net, leaves: &[NodeCopy]) -> Cover {
    let lut = |root: usize| {
        let pins = &net.gates[root - net.inputs].pins;
        let (leaves, lag) = match pins[..] {
            [Pin { source, count }] => {
                let leaf = NodeCopy {
                    node: source,
                    d: count,
                };
                (vec![leaf], -i64::from(count))
            }
            _ => (leaves.to_vec(), 0),
        };
        let table = lut_table(net, root, &leaves);
        Lut {
            root,
            leaves,
            lag,
            table,
        }
    };
    Cover {
        period: 1,
        luts: net.gate_nodes().map(lut).collect(),
    }
}

/// A line of 30 gates, seen through none to five registers by a gate of six pins: its
/// largest cone has 183 copies.
pub fn wide_cone() -> Net {
    let mut pins: Vec<Vec<Read>> = (0..30).map(|i| vec![(i, 0)]).collect();
    pins.push(vec![(30, 3)]);
    pins.push(vec![(30, 0), (30, 1), (30, 2), (30, 3), (31, 1), (31, 2)]);
    let table = |pins: &Vec<Read>| {
        if pins.len() == 1 {
            1
        } else {
            0x6996_9669_9669_6996
        }
    };
    let gates: Vec<(&[Read], u64)> = pins.iter().map(|own| (&own[..], table(own))).collect();
    net(1, &gates, &[(32, 0)])
}

/// Six leaves with registers for each of 32 roots: the largest record, 962 bytes at k 6.
pub fn largest_record() -> Net {
    let mut pins: Vec<Vec<Read>> = Vec::new();
    for i in 0..16 {
        pins.push((0..6).map(|j| ((i + j) % 16, 1)).collect());
    }
    for i in 0..16 {
        let mut own: Vec<Read> = (0..5).map(|j| ((i + j + 7) % 16, 1)).collect();
        own.push((16 + i, 1));
        pins.push(own);
    }
    let gates: Vec<(&[Read], u64)> = pins.iter().map(|pins| (&pins[..], 1 << 63)).collect();
    let outputs: Vec<Read> = (0..16).map(|i| (32 + i, 0)).collect();
    net(16, &gates, &outputs)
}

/// What a ring looks like.
#[derive(Clone, Copy, Debug)]
pub struct Ring {
    pub gates: usize,
    /// Gates of the ring; the others are a line from gate 0 of the ring to the output.
    pub round: usize,
    /// Registers on the pin that closes the ring, at least 1.
    pub close: u32,
    /// Registers on each pin of the line to the output.
    pub far: u32,
    /// Inputs; gate i reads input i modulo this.
    pub inputs: usize,
    /// Registers on the pins that read inputs.
    pub entry: u32,
    /// The number of pins of a gate of the ring: the ring's pin, then inputs.
    pub pins: usize,
}

/// A ring against the numbering: each gate reads the next higher one without a register,
/// the highest reads the lowest through the closing registers.
pub fn ring(ring: Ring) -> Net {
    let first = ring.inputs;
    let mut pins: Vec<Vec<Read>> = Vec::new();
    for i in 0..ring.round {
        let mut own = if i + 1 < ring.round {
            vec![(first + i + 1, 0)]
        } else {
            vec![(first, ring.close)]
        };
        own.extend((1..ring.pins).map(|j| ((i + j) % ring.inputs, ring.entry)));
        pins.push(own);
    }
    with_line(ring.inputs, pins, 0, ring.gates, ring.far)
}

/// Gates given by their pins, then a line of gates up to so many in all, from one of the first
/// gates to the output, with so many registers on each pin.
fn with_line(inputs: usize, mut pins: Vec<Vec<Read>>, from: usize, gates: usize, far: u32) -> Net {
    let mut end = inputs + from;
    for i in pins.len()..gates {
        pins.push(vec![(end, far)]);
        end = inputs + i;
    }
    // Parity needs every pin.
    let table =
        |pins: usize| (0..1u64 << pins).fold(0, |t, i| t | u64::from(i.count_ones() % 2) << i);
    let gates: Vec<(&[Read], u64)> = pins
        .iter()
        .map(|own| (&own[..], table(own.len())))
        .collect();
    net(inputs, &gates, &[(end, 0)])
}

/// A slow climb: a ring with registers on the pins of every second to fourth gate, each gate
/// reading inputs too, numbered along the signal or against it; the output is far.
fn climb(random: &mut Random, gates: usize, pins: usize, against: bool) -> Net {
    let round = random.within(1, gates);
    let step = random.within(2, 4);
    let inputs = random.within(1, 16);
    let each = random.within(1, 3) as u32;
    let entry = random.below(4) as u32;
    let place = |i: usize| if against { round - 1 - i } else { i };
    let mut all = vec![Vec::new(); round];
    for i in 0..round {
        let count = if i % step == 0 { each } else { 0 };
        let mut own = vec![(inputs + place((i + round - 1) % round), count)];
        own.extend((1..pins).map(|j| ((i + j) % inputs, entry)));
        all[place(i)] = own;
    }
    with_line(inputs, all, place(round - 1), gates, 3)
}

/// A deep one: a ring with one input, whose gates read others of the ring through registers.
fn deep_climb(random: &mut Random, gates: usize, pins: usize) -> Net {
    let round = random.within(1, gates);
    let step = random.within(1, 6);
    let most = random.within(1, 3) as u32;
    let hub = random.chance(50);
    let mut all = Vec::new();
    for i in 0..round {
        let mut own = match i {
            0 => vec![(round, most), (0, random.below(4) as u32)],
            _ => vec![(i, u32::from(step > 1 && i % step == 0))],
        };
        while own.len() < pins {
            let source = if hub { i / 2 } else { random.below(round) };
            own.push((1 + source, if random.chance(33) { 3 } else { most }));
        }
        all.push(own);
    }
    with_line(1, all, round - 1, gates, 3)
}

/// Two rings that read each other through registers; the output is far from the second.
fn coupled_rings(random: &mut Random, gates: usize, pins: usize) -> Net {
    let first = random.within(1, gates.div_ceil(2));
    let second = random.within(1, gates.div_ceil(2)).min(gates - first);
    if second == 0 {
        return climb(random, gates, pins, false);
    }
    let inputs = random.within(1, 16);
    let mut all = Vec::new();
    for (start, round, other) in [(0, first, first + second / 2), (first, second, first / 3)] {
        let (close, between) = (random.within(1, 3) as u32, random.within(1, 3) as u32);
        for i in 0..round {
            let mut own = match i {
                0 => vec![(inputs + start + round - 1, close)],
                _ => vec![(inputs + start + i - 1, 0)],
            };
            own.extend((1..pins).map(|j| ((i + j) % inputs, 0)));
            if i == round / 2 {
                own[1] = (inputs + other, between);
            }
            all.push(own);
        }
    }
    // Two gates of two pins would read no input.
    if pins == 2 && first + second == 2 {
        all[0][0] = (0, 0);
    }
    with_line(inputs, all, first + second - 1, gates, 3)
}

/// Many loops in a row, each of up to four gates, the first gate of each reading the loop before.
fn loops_in_a_row(random: &mut Random, gates: usize, pins: usize) -> Net {
    let round = random.within(1, 4.min(gates));
    let close = random.within(1, 3) as u32;
    let between = random.below(4) as u32;
    let inputs = random.within(1, 16);
    let total = gates / round * round;
    let against = random.chance(50);
    let place = |g: usize| inputs + if against { total - 1 - g } else { g };
    let mut all = vec![Vec::new(); total];
    for g in 0..total {
        let mut own = match g % round {
            0 => vec![(place(g + round - 1), close)],
            _ => vec![(place(g - 1), 0)],
        };
        own.extend((1..pins).map(|j| ((g + j) % inputs, 0)));
        if g % round == 0 && g > 0 {
            own[1] = (place(g - 1), between);
        }
        all[place(g) - inputs] = own;
    }
    with_line(inputs, all, place(total - 1) - inputs, gates, 0)
}

/// The nets of real designs in `real-nets.txt`, as records.
pub fn real() -> Vec<Vec<u8>> {
    let lines = include_str!("../real-nets.txt").lines();
    let digits = lines.filter_map(|line| Some(line.split_once(' ')?.0).filter(|word| *word != "#"));
    let byte = |pair: &[u8]| {
        let pair = std::str::from_utf8(pair).expect("ASCII");
        u8::from_str_radix(pair, 16).expect("two hexadecimal digits")
    };
    digits
        .map(|word| word.as_bytes().chunks(2).map(byte).collect())
        .collect()
}

/// The names of the slow families.
pub const FAMILIES: [&str; 9] = [
    "ring",
    "far output",
    "registers",
    "tangle",
    "climb along",
    "climb against",
    "deep climb",
    "coupled rings",
    "loops in a row",
];

/// The real nets, each with some section.
pub fn real_with_sections() -> Vec<Vec<u8>> {
    let mut random = Random::new(6);
    let with = |net: Vec<u8>| {
        let nodes = usize::from(net[0]) + usize::from(net[1]);
        with_section(&net, &random_section(nodes, &mut random))
    };
    real().into_iter().map(with).collect()
}

/// A net of a family with so many gates and at most so many pins a gate.
pub fn of_family(family: usize, random: &mut Random, gates: usize, pins: usize) -> Net {
    let own = random.within(2, pins);
    match family {
        // A ring of all gates.
        0 => ring(Ring {
            gates,
            round: gates,
            close: random.within(1, 3) as u32,
            far: 0,
            inputs: random.within(1, 16),
            entry: random.below(4) as u32,
            pins: own,
        }),
        // A ring whose output is up to 3 registers a gate away.
        1 => ring(Ring {
            gates,
            round: random.within(1, gates),
            close: random.within(1, 3) as u32,
            far: random.within(1, 3) as u32,
            inputs: random.within(1, 16),
            entry: random.below(4) as u32,
            pins: own,
        }),
        // Registers on every pin.
        2 => random_net(
            random,
            &Shape {
                inputs: (1, 3),
                gates: (gates, gates),
                outputs: (1, 1),
                pins: (2, own),
                count: 3,
                registers: 100,
                back: 50,
                twin: 10,
                input: 5,
            },
        ),
        // Few registers, many loops, one input.
        3 => {
            let shape = Shape {
                inputs: (1, 1),
                gates: (gates, gates),
                outputs: (1, 1),
                pins: (1, own),
                count: random.within(1, 3) as u32,
                registers: random.pick(&[0, 10, 30]),
                back: random.pick(&[20, 50]),
                twin: 0,
                input: 0,
            };
            random_net(random, &shape)
        }
        4 => climb(random, gates, own, false),
        5 => climb(random, gates, own, true),
        6 => deep_climb(random, gates, own),
        7 => coupled_rings(random, gates, own),
        _ => loops_in_a_row(random, gates, own),
    }
}

/// Net C with a section, as a record: one step before step 0 both inputs were 1.
pub fn c_with_section() -> Vec<u8> {
    with_section(&net_c(), &[1, 1, 0])
}

/// Nets with a section, as records: whole ones, the longest record of 803 bytes among them, and broken ones.
pub fn with_sections() -> Vec<Vec<u8>> {
    let mut longest = largest_record();
    for output in &mut longest.outputs {
        output.count = 3;
    }
    let longest = with_section(&encode(&longest), &[7; 48]);
    assert_eq!(longest.len(), 803);
    let mut nets = vec![c_with_section(), longest];
    nets.push(with_section(&net_a(), &[1, 2, 3, 4, 5]));
    nets.push(with_section(&net_b(1), &[7; 5]));
    // Nothing behind the bit; bytes missing; one above 7, at each end of the section; bytes over.
    let sections: [&[u8]; 6] = [&[], &[7, 7], &[8, 0, 0], &[0, 0, 8], &[0; 4], &[0, 0, 0, 8]];
    nets.extend(sections.map(|section| with_section(&net_c(), section)));
    // A section without its bit; I alone, in its range and beyond.
    nets.push([net_c(), vec![1, 1, 0]].concat());
    nets.extend([0x80, 0x81, 0x90, 0x91, 0xc1].map(|first| vec![first]));
    nets
}

/// Net C with a second output, which reads input 0 through two registers, and a section, as a record.
pub fn c_with_two_outputs() -> Vec<u8> {
    let two = net(2, &[(&[(0, 1), (1, 1)], AND)], &[(2, 0), (0, 2)]);
    with_section(&encode(&two), &[1, 3, 7])
}

/// A line of 32 gates behind three registers each, and three at the output, with a section: one LUT with lag -96
/// and 99 registers behind it.
pub fn longest_connection() -> Vec<u8> {
    let mut line = line(32, 3);
    line.outputs[0].count = 3;
    let section: Vec<u8> = (0..33).map(|node| node * 5 % 8).collect();
    with_section(&encode(&line), &section)
}

/// 16 outputs behind 99 registers each: as many as outputs can have.
pub fn longest_outputs() -> Vec<u8> {
    let mut line = line(32, 3);
    line.outputs = vec![
        Pin {
            source: 32,
            count: 3
        };
        16
    ];
    with_section(&encode(&line), &[5; 33])
}

/// Nets for forward covers, as records: those whose boards have most registers, and those on which a shortcut
/// goes wrong, with a section and without.
pub fn for_forward() -> Vec<Vec<u8>> {
    let mut nets = vec![
        c_with_two_outputs(),
        longest_connection(),
        longest_outputs(),
    ];
    for rare in rare::all() {
        let nodes = usize::from(rare.net[0] + rare.net[1]);
        nets.push(with_section(&rare.net, &vec![6; nodes]));
        nets.push(rare.net);
    }
    nets
}

/// Records that are refused with 4 to 8 in turn, then with 9, 10 and 11.
pub fn refused() -> Vec<Vec<u8>> {
    let loop_of_one = net(1, &[(&[(1, 0)], 2)], &[(1, 0)]);
    let from_nowhere = net(1, &[(&[(1, 1)], 2)], &[(1, 0)]);
    let to_nowhere = net(1, &[(&[(0, 0)], 2)], &[(0, 0)]);
    let mut nets = vec![vec![], vec![17], vec![1, 1, 1, 0], vec![1, 1, 1, 7]];
    nets.push([net_a(), vec![0]].concat());
    nets.extend([loop_of_one, from_nowhere, to_nowhere].map(|net| encode(&net)));
    nets
}

/// Nets with a section and without, mapped to forward covers or out of reach, then those that are refused.
pub fn mapped_and_refused() -> Vec<Vec<u8>> {
    let mut nets = vec![net_a(), net_b(1), net_c(), encode(&largest_record())];
    nets.extend([&net_a(), &net_b(1)].map(|net| with_section(net, &[5; 5])));
    nets.extend([c_with_section(), longest_outputs()]);
    nets.extend(refused());
    nets
}

/// Document 01's nets, lines around the limits, the largest record, one net of each family, nets with a section
/// and nets for forward covers, as records.
pub fn hand_made() -> Vec<Vec<u8>> {
    let mut nets = vec![
        net_a(),
        net_b(0),
        net_b(1),
        net_b(3),
        net_b(4),
        net_c(),
        Vec::new(),
    ];
    nets.extend([line(1, 3), line(32, 0), line(32, 3), line(33, 0)].map(|net| encode(&net)));
    nets.extend([and_line(5, 0, 0), and_line(15, 1, 3), largest_record()].map(|net| encode(&net)));
    for family in 0..FAMILIES.len() {
        nets.push(encode(&of_family(family, &mut Random::new(7), 6, 2)));
    }
    nets.extend(with_sections());
    nets.extend(for_forward());
    nets
}
