//! The program `listing` over standard input and output, against the second mapper's text.

use library::inputs::some_section;
use library::nets::{hand_made, largest_record, net, net_a, net_b, net_c, Read, AND};
use library::programs;
use second::damage::damaged_net;
use second::encode::encode;
use second::generate::{random_net, Shape};
use second::listing::{listing, GAVE_UP};
use second::Random;

fn printed(given: &[u8]) -> String {
    programs::printed("listing", given)
}

fn same(k: u8, target: u8, net: &[u8]) -> String {
    let text = printed(&[&[k, target], net].concat());
    assert_eq!(
        text,
        listing(k.into(), target.into(), net),
        "k {k} target {target} net {net:02x?}"
    );
    text
}

#[test]
fn examples() {
    assert_eq!(
        same(2, 0, &net_a()),
        "period 2 luts 2 registers 1\n\
        lut 2 label 1 lag 0 table 8 leaves 0:0 1:0\n\
        lut 4 label 2 lag 0 table 9 leaves 2:0 4:1\n"
    );
    assert_eq!(same(2, 1, &net_a()), "refused 12\n");
    for k in 1..8 {
        for target in [0, 1, 2, 3, 32, 33, 255] {
            for net in [
                net_a(),
                net_b(0),
                net_b(1),
                net_c(),
                encode(&largest_record()),
            ] {
                same(k, target, &net);
            }
        }
    }
}

/// Document 02, E2: readers of one node share a chain, and inputs are nodes too.
#[test]
fn shared_registers() {
    let count = |outputs: &[Read], gates: &[(&[Read], u64)], k, target| {
        let text = same(k, target, &encode(&net(2, gates, outputs)));
        let first = text.lines().next().unwrap().to_string();
        first.split(' ').next_back().unwrap().to_string()
    };
    // the LUT of C's gate has lag -1, its leaves 0 registers
    let c: [(&[Read], u64); 1] = [(&[(0, 1), (1, 1)], AND)];
    assert_eq!(count(&[(2, 0)], &c, 2, 1), "1");
    assert_eq!(count(&[(2, 0), (0, 2)], &c, 2, 1), "3");
    assert_eq!(count(&[(2, 0), (2, 1)], &c, 2, 1), "2");
    assert_eq!(count(&[(2, 0), (2, 0)], &c, 2, 1), "1");
    assert_eq!(count(&[(2, 0), (2, 1), (0, 2), (0, 1)], &c, 2, 1), "4");
    // B at k 2 and target 1: "still showing 2"
    let b = same(2, 1, &net_b(1));
    assert!(b.starts_with("period 1 luts 2 registers 2\n"), "{b}");
    // two LUTs read input 0, through 1 register and through 2
    let two: [(&[Read], u64); 2] = [(&[(0, 1), (1, 0)], AND), (&[(0, 2), (1, 0)], AND)];
    assert_eq!(count(&[(2, 0), (3, 0)], &two, 2, 2), "2");
}

#[test]
fn refusals() {
    assert_eq!(printed(&[]), "refused 1\n");
    assert_eq!(printed(&[2]), "refused 4\n");
    assert_eq!(printed(&[2, 33]), "refused 2\n");
    assert_eq!(printed(&[7, 33]), "refused 1\n");
    assert_eq!(same(2, 0, &[17]), "refused 5\n");
    assert_eq!(same(2, 0, &[1, 1, 1, 0]), "refused 6\n");
    assert_eq!(same(2, 0, &[1, 1, 1, 7]), "refused 7\n");
    assert_eq!(same(2, 0, &[net_a(), vec![0]].concat()), "refused 8\n");
    assert_eq!(
        same(2, 0, &[net_a(), vec![0; 100_000]].concat()),
        "refused 8\n"
    );
    // one gate that reads itself, without and with a register, and an output that reads the input
    assert_eq!(same(2, 0, &[1, 1, 1, 1, 0, 1, 2, 0, 1]), "refused 9\n");
    assert_eq!(same(2, 0, &[1, 1, 1, 1, 1, 1, 1, 2, 0, 1]), "refused 10\n");
    assert_eq!(same(2, 0, &[1, 1, 1, 1, 0, 0, 2, 0, 0]), "refused 11\n");
}

/// The same of the nets made by hand, where the second mapper does not give up.
#[test]
fn labels_and_cuts_by_hand() {
    for net in hand_made() {
        for k in 2..=6 {
            for target in [0, 1, 2, 3, 5, 8, 16, 32] {
                if listing(k.into(), target.into(), &net) != GAVE_UP {
                    same(k, target, &net);
                }
            }
        }
    }
}

/// Labels, chosen cuts, lags and periods of 20,000 nets that have a cover.
#[test]
fn labels_and_cuts() {
    std::thread::scope(|scope| {
        for seed in [11, 12] {
            scope.spawn(move || {
                let mut random = Random::new(seed);
                let mut covers = 0;
                while covers < 10_000 {
                    let gates = random.within(1, 14);
                    let shape = Shape::any(&mut random, gates, 4);
                    let net = encode(&random_net(&mut random, &shape));
                    let net = some_section(&mut random, net);
                    let k = random.within(4, 6) as u8;
                    let text = same(k, random.pick(&[0, 0, 1, 2, 3]), &net);
                    covers += usize::from(text.starts_with("period"));
                }
            });
        }
    });
}

#[test]
fn random_nets() {
    let mut random = Random::new(7);
    for turn in 0..400 {
        let gates = random.within(1, 14);
        let shape = Shape::any(&mut random, gates, 4);
        let net = encode(&random_net(&mut random, &shape));
        let net = if turn % 4 == 0 {
            damaged_net(&mut random, &net)
        } else {
            net
        };
        let k = random.within(2, 5) as u8;
        let target = random.pick(&[0, 0, 1, 2, 3]);
        same(k, target, &net);
    }
}
