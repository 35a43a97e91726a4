//! When a stretch of explicit letters matches a sequence.

use crate::node::{Node, Sort};
use crate::words::{Booleans, Letter};
use std::rc::Rc;

/// The ends of all matches from one start, rising. End e means that the
/// letters from the start to e - 1 match.
pub type Ends = Rc<Vec<usize>>;

/// How many letters of an endless ⊤ tail are enough to see whether some
/// samples followed by one or more ⊤ match: one more than the letter nodes of
/// the sequence that has most.
///
/// Take a shortest such match and write at each ⊤ the last letter node that
/// reads it. Were two marks alike, the letters after the first up to the second
/// could be cut out, since ⊤ satisfies every boolean, clock and negated clock.
/// So the marks all differ. (On ⊥ nothing matches, whatever the number.)
pub fn unrolled_letters(table: &[Node]) -> usize {
    let mut letter_nodes = vec![0; table.len()];
    for (index, node) in table.iter().enumerate() {
        letter_nodes[index] = match node {
            Node::Letter(_) => 1,
            _ if node.sort() != Sort::Sequence => 0,
            _ => node.operands().map(|operand| letter_nodes[operand]).sum(),
        };
    }
    1 + letter_nodes.into_iter().max().unwrap_or(0)
}

/// All matches of the sequences of one table on one row of letters.
pub struct Matching<'a> {
    table: &'a [Node],
    booleans: Rc<Booleans>,
    letters: Vec<Letter>,
    known: Vec<Option<Ends>>,
}

impl<'a> Matching<'a> {
    /// Nothing is worked out before it is asked for.
    pub fn new(table: &'a [Node], booleans: Rc<Booleans>, letters: Vec<Letter>) -> Matching<'a> {
        let known = vec![None; table.len() * (letters.len() + 1)];
        Matching {
            table,
            booleans,
            letters,
            known,
        }
    }

    /// The ends of the matches of a sequence under a clock, from a start.
    ///
    /// A node stands in one place, so its clock is always the same and need
    /// not be part of what is remembered.
    pub fn ends(&mut self, node: usize, clock: Option<usize>, start: usize) -> Ends {
        let place = node * (self.letters.len() + 1) + start;
        if let Some(ends) = &self.known[place] {
            return Rc::clone(ends);
        }
        let marks = match self.table[node] {
            Node::Letter(b) => self.letter(b, clock, start),
            Node::Then(r, s) => self.then(r, s, clock, start),
            Node::Fuse(r, s) => self.fuse(r, s, clock, start),
            Node::Either(r, s) => self.either(r, s, clock, start),
            Node::Empty(_) => self.marks_at(start),
            Node::Repeat(r) => self.repeat(r, clock, start),
            Node::ClockSequence(c, r) => self.either(r, r, Some(c), start),
            _ => self.no_marks(),
        };
        let ends: Vec<usize> = (start..marks.len()).filter(|&end| marks[end]).collect();
        let ends = Rc::new(ends);
        self.known[place] = Some(Rc::clone(&ends));
        ends
    }

    /// One letter satisfying b. Under a clock c the last letter satisfies c
    /// and b, and every earlier one satisfies not c.
    fn letter(&self, b: usize, clock: Option<usize>, start: usize) -> Vec<bool> {
        let mut marks = self.no_marks();
        for last in start..self.letters.len() {
            let letter = self.letters[last];
            let ticks = clock.is_none_or(|c| self.booleans.satisfies(letter, c));
            marks[last + 1] = ticks && self.booleans.satisfies(letter, b);
            let may_go_on = clock.is_some_and(|c| self.booleans.satisfies_not(letter, c));
            if !may_go_on {
                break;
            }
        }
        marks
    }

    /// `##1`: a match of the first, then a match of the second; both may be empty.
    fn then(&mut self, r: usize, s: usize, clock: Option<usize>, start: usize) -> Vec<bool> {
        let mut marks = self.no_marks();
        for &middle in self.ends(r, clock, start).iter() {
            for &end in self.ends(s, clock, middle).iter() {
                marks[end] = true;
            }
        }
        marks
    }

    /// `##0`: the two matches share exactly one letter, so neither is empty.
    fn fuse(&mut self, r: usize, s: usize, clock: Option<usize>, start: usize) -> Vec<bool> {
        let mut marks = self.no_marks();
        for &middle in self.ends(r, clock, start).iter() {
            if middle == start {
                continue;
            }
            let shared = middle - 1;
            for &end in self.ends(s, clock, shared).iter() {
                marks[end] |= end > shared;
            }
        }
        marks
    }

    /// or: either matches.
    fn either(&mut self, r: usize, s: usize, clock: Option<usize>, start: usize) -> Vec<bool> {
        let mut marks = self.no_marks();
        for operand in [r, s] {
            for &end in self.ends(operand, clock, start).iter() {
                marks[end] = true;
            }
        }
        marks
    }

    /// `[*1:$]`: one match, and from the end of each so far one more. Ends
    /// never fall, so one rising pass reaches all of them.
    fn repeat(&mut self, r: usize, clock: Option<usize>, start: usize) -> Vec<bool> {
        let mut marks = self.no_marks();
        for &end in self.ends(r, clock, start).iter() {
            marks[end] = true;
        }
        for middle in start..marks.len() {
            if marks[middle] {
                for &end in self.ends(r, clock, middle).iter() {
                    marks[end] = true;
                }
            }
        }
        marks
    }

    /// No end at all.
    fn no_marks(&self) -> Vec<bool> {
        vec![false; self.letters.len() + 1]
    }

    /// The empty match only.
    fn marks_at(&self, start: usize) -> Vec<bool> {
        let mut marks = self.no_marks();
        marks[start] = true;
        marks
    }
}
