//! Clocked tables that only the plain judge takes: their rewriting has more than 120 nodes.
use crate::cases::{all_ends, all_set, case, over_and_over, Case, Input, LONGEST, SEEDS};
use crate::nodes::Nodes;
use crate::random::{self, Random};

/// Tables whose rewriting is past 120: one as a lab writes it, then the largest there are of each operator, 119 or 120 nodes under one
/// clock, and random ones of 120.
pub fn all() -> Vec<Case> {
    let chains = CHAINS.iter().map(Chain::case);
    let random = random_of(120, LONGEST, "past-random");
    [limits()]
        .into_iter()
        .chain(chains)
        .chain([random])
        .collect()
}

/// examples/limits.txt: four limits of a drive at a clock, until the supply drops. Two writes, again and again.
fn limits() -> Case {
    let table = include_bytes!("../../../examples/limits.svt").to_vec();
    let samples = over_and_over(&[3, 2, 5, 4, 5, 4, 9, 8, 1, 0]);
    Case {
        name: "past-limits".to_string(),
        inputs: vec![Input { table, samples }],
    }
}

/// Nodes one above the other, made of a boolean a, under a clock: its name, the lowest of them, one more above the node given, from how
/// many nodes on no more are added, and the record. Sequences have strong above them.
enum Chain {
    Sequences(&'static str, First, Next, usize, Record),
    Properties(&'static str, First, Next, usize, Record),
}

type First = fn(&mut Nodes, u8) -> u8;
type Next = fn(&mut Nodes, u8, u8) -> u8;
type Record = fn() -> Vec<u64>;

const CHAINS: [Chain; 6] = [
    Chain::Sequences("past-letters", Nodes::letter, then, 117, every_other),
    Chain::Sequences("past-repeats", Nodes::letter, repeat, 118, all_set),
    Chain::Sequences("past-fused", all_ends, fuse, 117, all_set),
    Chain::Properties("past-implies", strong_a, imply, 117, all_set),
    Chain::Properties("past-until", strong_a, until, 117, every_other),
    Chain::Properties("past-nexttime", strong_a, next, 119, every_other),
];

/// A record in which a is set in every sample and the clock in every other.
fn every_other() -> Vec<u64> {
    over_and_over(&[3, 1])
}

/// strong(a)
fn strong_a(t: &mut Nodes, a: u8) -> u8 {
    let letter = t.letter(a);
    t.strong(letter)
}

/// One letter more.
fn then(t: &mut Nodes, a: u8, top: u8) -> u8 {
    let letter = t.letter(a);
    t.then(top, letter)
}

/// Where a is set in every sample, each has as many ends as there can be.
fn repeat(t: &mut Nodes, _: u8, top: u8) -> u8 {
    t.repeat(top)
}

/// A fused letter takes no end of what came before away.
fn fuse(t: &mut Nodes, a: u8, top: u8) -> u8 {
    let letter = t.letter(a);
    t.fused(top, letter)
}

/// The left side has every later place as an end.
fn imply(t: &mut Nodes, a: u8, top: u8) -> u8 {
    let left = all_ends(t, a);
    t.implies(left, top)
}

/// strong(a) on the left, and all that came before on the right.
fn until(t: &mut Nodes, a: u8, top: u8) -> u8 {
    let held = strong_a(t, a);
    t.until(held, top)
}

/// 14 nodes each when rewritten: 1,622 in all.
fn next(t: &mut Nodes, _: u8, top: u8) -> u8 {
    t.nexttime(top)
}

impl Chain {
    /// The chain on its record.
    fn case(&self) -> Case {
        let (Chain::Sequences(name, first, next, enough, record)
        | Chain::Properties(name, first, next, enough, record)) = self;
        let mut t = Nodes::default();
        let a = t.signal(0);
        let c = t.signal(1);
        let mut top = first(&mut t, a);
        while t.len() < *enough {
            top = next(&mut t, a, top);
        }
        if matches!(self, Chain::Sequences(..)) {
            top = t.strong(top);
        }
        t.clocked(c, top);
        case(name, &t, record())
    }
}

/// Random clocked tables of so many nodes on so many samples.
fn random_of(nodes: usize, n: usize, name: &str) -> Case {
    let input = |seed| {
        let mut r = Random::new(seed);
        Input {
            table: random::clocked_table(&mut r, nodes),
            samples: random::samples(&mut r, n),
        }
    };
    Case {
        name: name.to_string(),
        inputs: SEEDS.into_iter().map(input).collect(),
    }
}

/// The nodes and the samples for which the growth of the plain judge's time is shown.
pub const NODES: [usize; 4] = [15, 30, 60, 120];
pub const SAMPLES: [usize; 4] = [0, 15, 31, 63];

/// Random clocked tables of growing size, on records of growing length.
pub fn growing() -> Vec<[Case; 4]> {
    let row = |nodes| SAMPLES.map(|n| random_of(nodes, n, &format!("nodes-{nodes}-n-{n}")));
    NODES.into_iter().map(row).collect()
}
