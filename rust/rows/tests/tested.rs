//! Whether a record tests an assertion, worked out by hand from docs/FORMAT.md (Tested). a, b, c are signals 0, 1, 2, so that a sample of 5 has a and c.
mod tables;

use rows::{judge, Verdict};
use tables::{level, node, table};

const STRONG: u8 = 32;
const WEAK: u8 = 33;
const NOT: u8 = 34;
const OR: u8 = 35;
const AND: u8 = 36;
const IMPLIES: u8 = 37;
const NEXTTIME: u8 = 38;
const UNTIL: u8 = 39;
const CLOCK: u8 = 40;

/// The booleans that every table begins with: a, b, c and the constant 1.
const A: u8 = 0;
const B: u8 = 1;
const C: u8 = 2;
const ONE: u8 = 3;

/// The nodes of a table. Each function that adds nodes answers the index of the last.
struct Nodes(Vec<[u8; 4]>);

impl Nodes {
    /// The booleans, and what is made of them.
    fn made(more: impl FnOnce(&mut Nodes) -> u8) -> Self {
        let mut nodes = Self(vec![tables::A, tables::B, tables::C, node(0, 1, 0)]);
        more(&mut nodes);
        nodes
    }

    fn add(&mut self, op: u8, x: u8, y: u8) -> u8 {
        self.0.push(node(op, x, y));
        self.0.len() as u8 - 1
    }

    fn letter(&mut self, b: u8) -> u8 {
        self.add(16, b, 0)
    }

    /// strong or weak of a letter.
    fn over(&mut self, op: u8, b: u8) -> u8 {
        let letter = self.letter(b);
        self.add(op, letter, 0)
    }

    /// `b |-> weak(1)`: it holds from everywhere, and is tested from a sample with b.
    fn asking(&mut self, b: u8) -> u8 {
        let left = self.letter(b);
        let right = self.over(WEAK, ONE);
        self.add(IMPLIES, left, right)
    }

    /// `not (b |-> weak(1))`: it holds from nowhere, and is tested from a sample with b.
    fn failing(&mut self, b: u8) -> u8 {
        let p = self.asking(b);
        self.add(NOT, p, 0)
    }

    /// `@(c)(P until Q)`.
    fn until_at_ticks(&mut self, p: u8, q: u8) -> u8 {
        let until = self.add(UNTIL, p, q);
        self.add(CLOCK, C, until)
    }

    /// Whether the samples test the table, which is accepted.
    fn tested(&self, samples: &[u64]) -> bool {
        let judgement = judge(&table(2, &self.0), samples, &mut [0; 7800]);
        assert_eq!(judgement.verdict, Verdict::default(), "{:?}", self.0);
        judgement.tested
    }

    /// Each of the records tests it.
    fn tested_on(&self, records: &[&[u64]]) {
        for samples in records {
            assert!(self.tested(samples), "{:?}, {samples:?}", self.0);
        }
    }

    /// None of the records tests it.
    fn untested_on(&self, records: &[&[u64]]) {
        for samples in records {
            assert!(!self.tested(samples), "{:?}, {samples:?}", self.0);
        }
    }
}

#[test]
fn strong_and_weak_are_tested_everywhere() {
    for op in [STRONG, WEAK] {
        let nodes = Nodes::made(|t| t.over(op, A));
        nodes.tested_on(&[&[], &[0], &[1], &[2, 1]]);
    }
}

#[test]
fn not_follows_its_operand() {
    let nodes = Nodes::made(|t| t.failing(A));
    nodes.tested_on(&[&[1], &[1, 0]]);
    nodes.untested_on(&[&[], &[2], &[2, 1]]);
}

#[test]
fn and_and_or_need_either_operand() {
    for op in [AND, OR] {
        let nodes = Nodes::made(|t| {
            let (p, q) = (t.asking(A), t.asking(B));
            t.add(op, p, q)
        });
        nodes.tested_on(&[&[1], &[2], &[3]]);
        nodes.untested_on(&[&[], &[4], &[4, 3]]);
    }
}

#[test]
fn an_implication_needs_a_match_from_where_it_is_asked() {
    // a |-> strong(b)
    let nodes = Nodes::made(|t| {
        let left = t.letter(A);
        let right = t.over(STRONG, B);
        t.add(IMPLIES, left, right)
    });
    nodes.tested_on(&[&[1], &[3], &[1, 2]]);
    // a at sample 1 is a start that is never reached.
    nodes.untested_on(&[&[], &[2], &[2, 1]]);
    assert_eq!(level(2, &nodes.0, &[2, 1]), 3);
}

#[test]
fn a_longer_left_side_has_to_match_whole() {
    // (a ##1 b) |-> (c |-> weak(1)), whose right side is asked at b
    let nodes = Nodes::made(|t| {
        let (a, b) = (t.letter(A), t.letter(B));
        let left = t.add(17, a, b);
        let right = t.asking(C);
        t.add(IMPLIES, left, right)
    });
    nodes.tested_on(&[&[1, 6], &[5, 6, 0]]);
    nodes.untested_on(&[&[1], &[5], &[5, 2], &[1, 4], &[1, 2, 4]]);
}

#[test]
fn one_of_the_matches_is_enough() {
    // a[*1:$] |-> (b |-> weak(1))
    let nodes = Nodes::made(|t| {
        let a = t.letter(A);
        let left = t.add(21, a, 0);
        let right = t.asking(B);
        t.add(IMPLIES, left, right)
    });
    nodes.tested_on(&[&[3], &[1, 1, 3], &[1, 3, 1]]);
    nodes.untested_on(&[&[1, 1], &[1, 0, 3], &[1, 2], &[0, 3]]);
}

#[test]
fn implications_in_each_other_all_need_a_match() {
    // a |-> (b |-> (c |-> weak(1)))
    let nodes = Nodes::made(|t| {
        let (a, b) = (t.letter(A), t.letter(B));
        let right = t.asking(C);
        let right = t.add(IMPLIES, b, right);
        t.add(IMPLIES, a, right)
    });
    nodes.tested_on(&[&[7], &[7, 0]]);
    nodes.untested_on(&[&[3], &[5], &[6], &[1, 2, 4]]);
}

#[test]
fn an_empty_match_does_not_count() {
    // (a[*0] or b) |-> weak(1), and nexttime of it: there the empty match has a sample before it, which is not its last letter
    let left = |t: &mut Nodes| {
        let (a, b) = (t.letter(A), t.letter(B));
        let empty = t.add(20, a, 0);
        let left = t.add(19, empty, b);
        let right = t.over(WEAK, ONE);
        t.add(IMPLIES, left, right)
    };
    let nodes = Nodes::made(left);
    nodes.tested_on(&[&[2], &[2, 1]]);
    nodes.untested_on(&[&[], &[1], &[1, 2]]);
    let nodes = Nodes::made(|t| {
        let p = left(t);
        t.add(NEXTTIME, p, 0)
    });
    nodes.tested_on(&[&[0, 2], &[3, 2]]);
    nodes.untested_on(&[&[2], &[2, 1], &[2, 1, 2]]);
}

#[test]
fn nexttime_needs_a_sample_and_asks_after_it() {
    // The suffix after it may be empty, where weak(a) is tested and an implication is not.
    let nodes = Nodes::made(|t| {
        let p = t.over(WEAK, A);
        t.add(NEXTTIME, p, 0)
    });
    nodes.tested_on(&[&[1], &[0], &[0, 1]]);
    nodes.untested_on(&[&[]]);
    let nodes = Nodes::made(|t| {
        let p = t.asking(A);
        t.add(NEXTTIME, p, 0)
    });
    nodes.tested_on(&[&[0, 1], &[1, 1]]);
    nodes.untested_on(&[&[], &[1], &[1, 0], &[1, 0, 1]]);
}

#[test]
fn nexttime_under_a_clock_needs_a_second_tick() {
    // @(a) nexttime weak(a)
    let nodes = Nodes::made(|t| {
        let p = t.over(WEAK, A);
        let next = t.add(NEXTTIME, p, 0);
        t.add(CLOCK, A, next)
    });
    nodes.tested_on(&[&[1, 1], &[4, 1, 4, 1]]);
    nodes.untested_on(&[&[], &[4], &[1], &[1, 4], &[4, 1, 4]]);
    // @(c) nexttime (a |-> weak(1)): a has to be there at the second tick
    let nodes = Nodes::made(|t| {
        let p = t.asking(A);
        let next = t.add(NEXTTIME, p, 0);
        t.add(CLOCK, C, next)
    });
    nodes.tested_on(&[&[4, 5], &[0, 4, 1, 5]]);
    nodes.untested_on(&[&[5, 4], &[5, 1, 4], &[4, 4, 5], &[0, 5, 1]]);
}

#[test]
fn until_needs_a_position_with_either_side_tested() {
    // (a |-> weak(1)) until not (b |-> weak(1)): at each position the left holds and the right does not
    let nodes = Nodes::made(|t| {
        let (p, q) = (t.asking(A), t.failing(B));
        t.add(UNTIL, p, q)
    });
    nodes.tested_on(&[&[1], &[2], &[0, 0, 1], &[0, 4, 2, 0]]);
    nodes.untested_on(&[&[], &[0], &[0, 4, 0]]);
    // A position is inside the record: strong(a) until strong(b)
    let nodes = Nodes::made(|t| {
        let (p, q) = (t.over(STRONG, A), t.over(STRONG, B));
        t.add(UNTIL, p, q)
    });
    nodes.tested_on(&[&[0], &[1, 1]]);
    nodes.untested_on(&[&[]]);
}

#[test]
fn until_ends_where_the_right_side_holds() {
    // (c |-> weak(1)) until (c |-> weak(1))
    let nodes = Nodes::made(|t| {
        let (p, q) = (t.asking(C), t.asking(C));
        t.add(UNTIL, p, q)
    });
    nodes.tested_on(&[&[4], &[4, 0]]);
    nodes.untested_on(&[&[0, 4]]);
    assert_eq!(level(2, &nodes.0, &[0, 4]), 3);
}

#[test]
fn until_ends_where_the_left_side_fails() {
    // not (c |-> weak(1)) until not (c |-> weak(1))
    let nodes = Nodes::made(|t| {
        let (p, q) = (t.failing(C), t.failing(C));
        t.add(UNTIL, p, q)
    });
    nodes.tested_on(&[&[4], &[4, 0]]);
    nodes.untested_on(&[&[0, 4]]);
    assert_eq!(level(2, &nodes.0, &[0, 4]), 0);
}

#[test]
fn until_under_a_clock_asks_at_the_ticks() {
    // @(c)(strong(c) until strong(c))
    let nodes = Nodes::made(|t| {
        let (p, q) = (t.over(STRONG, C), t.over(STRONG, C));
        t.until_at_ticks(p, q)
    });
    nodes.tested_on(&[&[4], &[0, 4]]);
    nodes.untested_on(&[&[], &[0], &[3, 3]]);
    // @(c)((a |-> weak(1)) until not (b |-> weak(1))): no other sample is asked, and none ends it
    let nodes = Nodes::made(|t| {
        let (p, q) = (t.asking(A), t.failing(B));
        t.until_at_ticks(p, q)
    });
    nodes.tested_on(&[&[5], &[4, 0, 5], &[4, 1, 6]]);
    nodes.untested_on(&[&[4, 1, 4], &[3], &[4, 3]]);
    // @(c)((a |-> weak(1)) until (b |-> weak(1))) ends at the first tick, where the right side holds
    let nodes = Nodes::made(|t| {
        let (p, q) = (t.asking(A), t.asking(B));
        t.until_at_ticks(p, q)
    });
    nodes.tested_on(&[&[5], &[0, 6]]);
    nodes.untested_on(&[&[4, 5], &[0, 4, 6]]);
}

#[test]
fn a_clock_moves_the_left_side_to_a_tick() {
    // @(c)(a |-> weak(1))
    let nodes = Nodes::made(|t| {
        let p = t.asking(A);
        t.add(CLOCK, C, p)
    });
    nodes.tested_on(&[&[5], &[0, 5]]);
    nodes.untested_on(&[&[1], &[1, 4], &[4, 5]]);
    // @(c) @(b) (a |-> weak(1)): the nearest clock counts
    let nodes = Nodes::made(|t| {
        let p = t.asking(A);
        let inner = t.add(CLOCK, B, p);
        t.add(CLOCK, C, inner)
    });
    nodes.tested_on(&[&[3], &[4, 3]]);
    nodes.untested_on(&[&[5], &[2, 5]]);
}

#[test]
fn a_rise_before_the_suffix_counts() {
    // nexttime (rose a |-> weak(1))
    let nodes = Nodes::made(|t| {
        let rose = t.add(5, 0, 0);
        let p = t.asking(rose);
        t.add(NEXTTIME, p, 0)
    });
    nodes.tested_on(&[&[0, 1], &[2, 1]]);
    nodes.untested_on(&[&[1, 1], &[0, 0, 1]]);
}

#[test]
fn a_full_record() {
    let mut last = [0; 63];
    last[62] = 1;
    // (a |-> weak(1)) until not (b |-> weak(1))
    let nodes = Nodes::made(|t| {
        let (p, q) = (t.asking(A), t.failing(B));
        t.add(UNTIL, p, q)
    });
    nodes.tested_on(&[&last]);
    nodes.untested_on(&[&[0; 63]]);
    // c[*1:$] |-> (a |-> weak(1)), whose longest match ends at place 63
    let nodes = Nodes::made(|t| {
        let letter = t.letter(C);
        let left = t.add(21, letter, 0);
        let right = t.asking(A);
        t.add(IMPLIES, left, right)
    });
    nodes.tested_on(&[&last.map(|sample| sample | 4)]);
    nodes.untested_on(&[&[4; 63]]);
}

#[test]
fn the_empty_suffix_of_a_full_record() {
    let nexttimes = |count: usize| {
        Nodes::made(|t| {
            let p = t.over(WEAK, A);
            (0..count).fold(p, |p, _| t.add(NEXTTIME, p, 0))
        })
    };
    nexttimes(63).tested_on(&[&[0; 63]]);
    nexttimes(64).untested_on(&[&[0; 63]]);
}
