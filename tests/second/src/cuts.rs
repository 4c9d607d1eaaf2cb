//! All k-cuts of a gate, by a search over its cones.
//!
//! The search meets copies one by one, starting with the root. Each met gate copy is
//! decided once: it stays outside as a leaf, or it joins the cone and the copies that
//! feed it are met. Met input copies are leaves. So each cone whose members all lead
//! to the root inside it arises from exactly one row of decisions.
//!
//! A branch is left when its leaves must become more than k. For that each gate has
//! one path back to an input, fixed once. The paths of all copies form trees, one for
//! each input copy. The path of a met copy, from that copy back, holds a leaf of every
//! cone that can still arise. So each tree with a met copy holds a leaf, and trees
//! share none. Two copies of one gate lie in different trees, so no more than k copies
//! of a gate join, and the search ends.

use crate::net::{Net, NodeCopy};

/// The leaves of a cone, rising by node, then by d, and the largest d of its members.
#[derive(Clone, Debug, PartialEq, Eq, PartialOrd, Ord)]
pub struct Cut {
    pub leaves: Vec<NodeCopy>,
    pub deepest: u32,
}

/// Where the search for one gate's cuts gives up.
#[derive(Clone, Copy, Debug)]
pub struct Limits {
    pub cuts: usize,
    pub steps: usize,
}

impl Default for Limits {
    fn default() -> Self {
        Limits {
            cuts: 200_000,
            steps: 10_000_000,
        }
    }
}

/// The k-cuts of every gate of a net that passed the checks 9 and 10.
pub struct CutSets {
    inputs: usize,
    sets: Vec<Vec<Cut>>,
}

impl CutSets {
    /// None if some gate has too many cuts.
    pub fn new(net: &Net, k: u32, limits: Limits) -> Option<CutSets> {
        let mut search = Search::new(net, k, limits);
        let mut sets = Vec::with_capacity(net.gates.len());
        for v in net.gate_nodes() {
            sets.push(search.cuts_of(v)?);
        }
        Some(CutSets {
            inputs: net.inputs,
            sets,
        })
    }

    /// The k-cuts of gate v.
    pub fn of(&self, v: usize) -> &[Cut] {
        &self.sets[v - self.inputs]
    }
}

/// All k-cuts of gate v, none if there are too many.
pub fn all_cuts(net: &Net, v: usize, k: u32) -> Option<Vec<Cut>> {
    all_cuts_within(net, v, k, Limits::default())
}

/// The same with limits of one's own.
pub fn all_cuts_within(net: &Net, v: usize, k: u32, limits: Limits) -> Option<Vec<Cut>> {
    Search::new(net, k, limits).cuts_of(v)
}

/// The end of a gate's path back to an input: the input, and the registers passed.
#[derive(Clone, Copy)]
struct End {
    input: usize,
    registers: u32,
}

/// A path back to an input for each node, found in rounds from the inputs on.
fn ends(net: &Net) -> Vec<End> {
    let mut ends: Vec<Option<End>> = vec![None; net.nodes()];
    for (i, end) in ends.iter_mut().enumerate().take(net.inputs) {
        *end = Some(End {
            input: i,
            registers: 0,
        });
    }
    for _ in net.gate_nodes() {
        let known = ends.clone();
        for v in net.gate_nodes().filter(|&v| known[v].is_none()) {
            ends[v] = net.gate(v).pins.iter().find_map(|pin| {
                known[pin.source].map(|end| End {
                    input: end.input,
                    registers: end.registers + pin.count,
                })
            });
        }
    }
    ends.into_iter()
        .map(|end| end.expect("a gate is reached from no input"))
        .collect()
}

/// How many copies of one tree were met, and how many of them are leaves.
#[derive(Clone, Copy, Default)]
struct Tree {
    met: u32,
    leaves: u32,
}

struct Search<'a> {
    net: &'a Net,
    k: usize,
    limits: Limits,
    ends: Vec<End>,
    /// Numbers of d in the tables below.
    width: usize,
    met: Vec<bool>,
    trees: Vec<Tree>,
    /// Trees with a met copy and no leaf yet.
    open: usize,
    /// Met gate copies in the order of meeting; decided from the front.
    row: Vec<NodeCopy>,
    leaves: Vec<NodeCopy>,
    /// The largest d of the members.
    deepest: u32,
    found: Vec<Cut>,
    steps: usize,
}

impl<'a> Search<'a> {
    fn new(net: &'a Net, k: u32, limits: Limits) -> Self {
        // No member and no leaf has d above k times this sum, and a path back to an
        // input meets each gate at most once, so it adds no more than the sum itself.
        let most = net.most_registers();
        let width = ((k + 1) * most + 1) as usize;
        Search {
            net,
            k: k as usize,
            limits,
            ends: ends(net),
            width,
            met: vec![false; net.nodes() * width],
            trees: vec![Tree::default(); net.inputs * width],
            open: 0,
            row: Vec::new(),
            leaves: Vec::new(),
            deepest: 0,
            found: Vec::new(),
            steps: 0,
        }
    }

    fn cuts_of(&mut self, v: usize) -> Option<Vec<Cut>> {
        let root = NodeCopy { node: v, d: 0 };
        self.steps = 0;
        self.found.clear();
        self.meet(root);
        let finished = self.join(root, 0);
        self.forget(root);
        self.row.clear();
        let mut found = std::mem::take(&mut self.found);
        found.sort_unstable();
        finished.then_some(found)
    }

    fn place(&self, copy: NodeCopy) -> usize {
        copy.node * self.width + copy.d as usize
    }

    fn tree(&mut self, copy: NodeCopy) -> &mut Tree {
        let end = self.ends[copy.node];
        &mut self.trees[end.input * self.width + (copy.d + end.registers) as usize]
    }

    /// Change the tree of a copy and keep the number of open trees.
    fn change(&mut self, copy: NodeCopy, step: impl Fn(&mut Tree)) {
        let open = |tree: &Tree| tree.met > 0 && tree.leaves == 0;
        let tree = self.tree(copy);
        let before = open(tree);
        step(tree);
        let after = open(tree);
        self.open = self.open + usize::from(after) - usize::from(before);
    }

    fn meet(&mut self, copy: NodeCopy) {
        let place = self.place(copy);
        self.met[place] = true;
        self.change(copy, |tree| tree.met += 1);
        if self.net.is_gate(copy.node) {
            self.row.push(copy);
        } else {
            self.add_leaf(copy);
        }
    }

    fn forget(&mut self, copy: NodeCopy) {
        if self.net.is_gate(copy.node) {
            self.row.pop();
        } else {
            self.drop_leaf(copy);
        }
        self.change(copy, |tree| tree.met -= 1);
        let place = self.place(copy);
        self.met[place] = false;
    }

    fn add_leaf(&mut self, copy: NodeCopy) {
        self.leaves.push(copy);
        self.change(copy, |tree| tree.leaves += 1);
    }

    fn drop_leaf(&mut self, copy: NodeCopy) {
        self.leaves.pop();
        self.change(copy, |tree| tree.leaves -= 1);
    }

    /// Decide the copies of the row from `next` on. False where it gives up.
    fn decide(&mut self, next: usize) -> bool {
        if self.leaves.len() + self.open > self.k {
            return true;
        }
        self.steps += 1;
        if self.steps > self.limits.steps {
            return false;
        }
        let Some(&copy) = self.row.get(next) else {
            return self.record();
        };
        self.add_leaf(copy);
        let finished = self.decide(next + 1);
        self.drop_leaf(copy);
        finished && self.join(copy, next)
    }

    /// Let a copy, the one at `next`, join the cone and decide the rest.
    fn join(&mut self, copy: NodeCopy, next: usize) -> bool {
        let net = self.net;
        let mut fresh = Vec::with_capacity(6);
        for feed in net.feeds(copy) {
            if !self.met[self.place(feed)] {
                self.meet(feed);
                fresh.push(feed);
            }
        }
        let before = self.deepest;
        self.deepest = before.max(copy.d);
        let finished = self.decide(next + 1);
        self.deepest = before;
        for &feed in fresh.iter().rev() {
            self.forget(feed);
        }
        finished
    }

    fn record(&mut self) -> bool {
        if self.found.len() == self.limits.cuts {
            return false;
        }
        let mut leaves = self.leaves.clone();
        leaves.sort_unstable();
        let deepest = self.deepest;
        self.found.push(Cut { leaves, deepest });
        true
    }
}
