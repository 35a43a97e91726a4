//! When a record tests a property: the non-vacuity of source 000, as docs/FORMAT.md
//! (Tested) has it, on the clocked table and on the record with no tail.

use crate::meaning::Meaning;
use crate::node::Node;
use crate::words::Tail;
use std::collections::HashMap;

/// Which properties of a table are tested by which suffixes of one record.
pub struct Testing<'m, 'a> {
    meaning: &'m mut Meaning<'a>,
    known: HashMap<(usize, usize), bool>,
}

impl<'m, 'a> Testing<'m, 'a> {
    /// Nothing is worked out before it is asked for.
    pub fn new(meaning: &'m mut Meaning<'a>) -> Testing<'m, 'a> {
        let known = HashMap::new();
        Testing { meaning, known }
    }

    /// Whether the suffix from position i on, 0 to n, tests a property under a
    /// clock: strong and weak always, not as its operand, and and or as either.
    ///
    /// A node stands in one place, so what is remembered need not have its clock.
    pub fn tested(&mut self, node: usize, clock: Option<usize>, i: usize) -> bool {
        if let Some(&answer) = self.known.get(&(node, i)) {
            return answer;
        }
        let answer = match self.meaning.node(node) {
            Node::Strong(_) | Node::Weak(_) => true,
            Node::NotProperty(p) => self.tested(p, clock, i),
            Node::OrProperty(p, q) | Node::AndProperty(p, q) => self.either(p, q, clock, i),
            Node::Implies(r, p) => self.implies(r, p, clock, i),
            Node::Nexttime(p) => self.nexttime(p, clock, i),
            Node::Until(p, q) => self.until(p, q, clock, i),
            Node::ClockProperty(c, p) => self.tested(p, Some(c), i),
            _ => false,
        };
        self.known.insert((node, i), answer);
        answer
    }

    /// Whether one of two properties is tested.
    fn either(&mut self, p: usize, q: usize, clock: Option<usize>, i: usize) -> bool {
        self.tested(p, clock, i) || self.tested(q, clock, i)
    }

    /// `R |-> P`: some non-empty prefix matches R, and P is tested from its
    /// last letter on.
    fn implies(&mut self, r: usize, p: usize, clock: Option<usize>, i: usize) -> bool {
        let ends = self.meaning.ends(r, clock, i, Tail::Nothing);
        let mut matches = ends.iter().filter(|&&end| end > i);
        matches.any(|&end| self.tested(p, clock, end - 1))
    }

    /// nexttime P: with no clock the word is not empty, and P is tested on
    /// suffix 1. Under a clock there is a second tick, and P is tested there.
    fn nexttime(&mut self, p: usize, clock: Option<usize>, i: usize) -> bool {
        let positions = self.positions(clock, i);
        let next = match clock {
            None => positions.first().map(|first| first + 1),
            Some(_) => positions.get(1).copied(),
        };
        next.is_some_and(|next| self.tested(p, clock, next))
    }

    /// P until Q: at some position either is tested, and at each earlier one P
    /// holds and Q does not.
    fn until(&mut self, p: usize, q: usize, clock: Option<usize>, i: usize) -> bool {
        for at in self.positions(clock, i) {
            if self.either(p, q, clock, at) {
                return true;
            }
            if !self.holds(p, clock, at) || self.holds(q, clock, at) {
                return false;
            }
        }
        false
    }

    /// Whether the suffix from a position on satisfies a property, with no tail.
    fn holds(&mut self, p: usize, clock: Option<usize>, at: usize) -> bool {
        self.meaning.satisfies(p, clock, at, Tail::Nothing)
    }

    /// The positions inside the word from i on; under a clock the ticks only.
    fn positions(&self, clock: Option<usize>, i: usize) -> Vec<usize> {
        let ticks = |&at: &usize| clock.is_none_or(|c| self.meaning.boolean(c, at));
        (i..self.meaning.samples()).filter(ticks).collect()
    }
}
