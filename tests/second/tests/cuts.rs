//! The search for cuts against cones grown from the definition.

mod common;

use common::{grown_cuts, tiny_net};
use second::generate::{random_net, Shape};
use second::{all_cuts, cone_of, Cut, Random};

/// The cones of these cuts, by the walk back, agree with the grown ones.
fn compare(net: &second::Net, v: usize, k: u32, grown: Vec<common::ConeAndLeaves>) {
    let mut expected: Vec<Cut> = Vec::new();
    for (cone, leaves) in grown {
        let deepest = cone.iter().map(|copy| copy.d).max().expect("the root");
        assert_eq!(cone_of(net, v, &leaves), Some(cone));
        expected.push(Cut { leaves, deepest });
    }
    expected.sort();
    let found = all_cuts(net, v, k).unwrap();
    assert_eq!(found, expected, "gate {v} of {net:?} at k {k}");
}

#[test]
fn tiny_nets_with_room_for_more_copies() {
    // k + 1 copies of a gate are allowed here; no k-cut has so many.
    let mut random = Random::new(11);
    let mut compared = 0;
    for _ in 0..3000 {
        let (net, k) = tiny_net(&mut random);
        for v in net.gate_nodes() {
            let copies = k as usize + 1;
            if let Some(grown) = grown_cuts(&net, v, k as usize, copies, 3000) {
                for (cone, _) in &grown {
                    for u in net.gate_nodes() {
                        let number = cone.iter().filter(|copy| copy.node == u).count();
                        assert!(number <= k as usize);
                    }
                }
                compare(&net, v, k, grown);
                compared += 1;
            }
        }
    }
    assert!(compared > 4000, "{compared}");
}

#[test]
fn nets_of_up_to_eight_gates() {
    let mut random = Random::new(12);
    let mut compared = 0;
    for _ in 0..1500 {
        let k = random.within(2, 6);
        let shape = Shape::any(&mut random, 8, k.min(4));
        let net = random_net(&mut random, &shape);
        for v in net.gate_nodes() {
            if let Some(grown) = grown_cuts(&net, v, k, k, 2000) {
                compare(&net, v, k as u32, grown);
                compared += 1;
            }
        }
    }
    assert!(compared > 3000, "{compared}");
}

#[test]
fn limits_of_a_cone() {
    let mut random = Random::new(13);
    for _ in 0..2000 {
        let k = random.within(2, 6);
        let shape = Shape::any(&mut random, 10, k);
        let net = random_net(&mut random, &shape);
        let most = net.most_registers() * k as u32;
        for v in net.gate_nodes() {
            for cut in all_cuts(&net, v, k as u32).unwrap() {
                assert!((1..=k).contains(&cut.leaves.len()));
                let cone = cone_of(&net, v, &cut.leaves).unwrap();
                assert!(cone.len() <= 191 && cut.leaves.iter().all(|leaf| leaf.d <= most.min(573)));
            }
        }
    }
}
