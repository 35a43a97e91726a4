//! When a suffix of a word satisfies a property, rule by rule.

use crate::matching::{unrolled_letters, Ends, Matching};
use crate::node::Node;
use crate::words::{cut, pairs, whole, Booleans, Letter, Pair, Tail};
use std::collections::HashMap;
use std::rc::Rc;

/// Which row of letters is meant.
#[derive(Clone, Copy, PartialEq, Eq, Hash)]
enum Name {
    /// The pairs of the record, then the tail.
    Whole(Tail),
    /// The first so many letters of that word, then ⊤ for ever.
    Cut(usize, Tail),
}

/// The meaning of one table on one record.
///
/// A place of a word is a position 0 to n. With a tail, position n stands for
/// every position in the tail, since all suffixes from n on are the same.
pub struct Meaning<'a> {
    table: &'a [Node],
    pairs: Vec<Pair>,
    booleans: Rc<Booleans>,
    extra: usize,
    matchings: HashMap<Name, Matching<'a>>,
    known: HashMap<(usize, usize, Tail), bool>,
}

impl<'a> Meaning<'a> {
    /// Nothing is worked out before it is asked for.
    pub fn new(table: &'a [Node], samples: &[u64]) -> Meaning<'a> {
        let pairs = pairs(samples);
        Meaning {
            table,
            booleans: Rc::new(Booleans::new(table, &pairs)),
            pairs,
            extra: unrolled_letters(table),
            matchings: HashMap::new(),
            known: HashMap::new(),
        }
    }

    /// The same with more letters of the tails, to see that they change nothing.
    #[cfg(test)]
    pub fn with_more_letters(mut self, more: usize) -> Meaning<'a> {
        self.extra += more;
        self
    }

    /// A node of the table.
    pub fn node(&self, index: usize) -> Node {
        self.table[index]
    }

    /// How many samples the record has.
    pub fn samples(&self) -> usize {
        self.pairs.len()
    }

    /// The ends of the matches on the pairs followed by the tail.
    pub fn ends(&mut self, node: usize, clock: Option<usize>, start: usize, tail: Tail) -> Ends {
        self.named(Name::Whole(tail)).ends(node, clock, start)
    }

    /// Whether pair i satisfies a boolean.
    pub fn boolean(&self, node: usize, i: usize) -> bool {
        self.booleans.satisfies(Letter::Pair(self.pairs[i]), node)
    }

    /// Whether the word from a position on satisfies a property under a clock.
    pub fn satisfies(&mut self, node: usize, clock: Option<usize>, i: usize, tail: Tail) -> bool {
        if let Some(&answer) = self.known.get(&(node, i, tail)) {
            return answer;
        }
        let answer = match self.table[node] {
            Node::Strong(r) => self.strong(r, clock, i, tail),
            Node::Weak(r) => self.weak(r, clock, i, tail),
            Node::NotProperty(p) => !self.satisfies(p, clock, i, tail.bar()),
            Node::OrProperty(p, q) => {
                self.satisfies(p, clock, i, tail) || self.satisfies(q, clock, i, tail)
            }
            Node::AndProperty(p, q) => {
                self.satisfies(p, clock, i, tail) && self.satisfies(q, clock, i, tail)
            }
            Node::Implies(r, p) => self.implies(r, p, clock, i, tail),
            Node::Nexttime(p) => match clock {
                None => self.nexttime(p, i, tail),
                Some(c) => self.nexttime_clocked(p, c, i, tail),
            },
            Node::Until(p, q) => self.until(p, q, clock, i, tail),
            Node::ClockProperty(c, p) => self.satisfies(p, Some(c), i, tail),
            _ => false,
        };
        self.known.insert((node, i, tail), answer);
        answer
    }

    /// strong(R): some non-empty prefix matches R.
    fn strong(&mut self, r: usize, clock: Option<usize>, i: usize, tail: Tail) -> bool {
        let ends = self.ends(r, clock, i, tail);
        ends.iter().any(|&end| end > i)
    }

    /// weak(R): each non-empty prefix, followed by ⊤ for ever, satisfies strong(R).
    ///
    /// Prefixes with more than one letter of the tail say nothing new: with ⊤
    /// they give the same word again, with ⊥ no match reaches past the first ⊥.
    fn weak(&mut self, r: usize, clock: Option<usize>, i: usize, tail: Tail) -> bool {
        let longest = match tail {
            Tail::Nothing => self.pairs.len(),
            Tail::Top | Tail::Bottom => self.pairs.len() + 1,
        };
        for cut in i + 1..=longest {
            let ends = self.named(self.cut_name(cut, tail)).ends(r, clock, i);
            let Some(&end) = ends.iter().find(|&&end| end > i) else {
                return false;
            };
            if end <= cut {
                // This match uses no added ⊤: every longer prefix has it, too.
                return true;
            }
        }
        true
    }

    /// `R |-> P`: each non-empty prefix of the bar that matches R has P from
    /// its last letter on.
    fn implies(&mut self, r: usize, p: usize, clock: Option<usize>, i: usize, tail: Tail) -> bool {
        let ends = self.ends(r, clock, i, tail.bar());
        ends.iter().filter(|&&end| end > i).all(|&end| {
            let last = self.position(end - 1);
            self.satisfies(p, clock, last, tail)
        })
    }

    /// nexttime P with no clock: w is empty, or suffix 1 satisfies P.
    fn nexttime(&mut self, p: usize, i: usize, tail: Tail) -> bool {
        self.letter(i, tail).is_none() || self.satisfies(p, None, self.position(i + 1), tail)
    }

    /// nexttime P under c: P at the second of the first two samples with c,
    /// else no on a ⊥ tail and yes otherwise.
    fn nexttime_clocked(&mut self, p: usize, c: usize, i: usize, tail: Tail) -> bool {
        let positions = i..self.pairs.len();
        let second = positions.filter(|&at| self.boolean(c, at)).nth(1);
        match second {
            Some(at) => self.satisfies(p, Some(c), at, tail),
            None => tail != Tail::Bottom,
        }
    }

    /// P until Q: some position has Q with P at each earlier one, or P is at
    /// every position. Going through the positions finds the first Q.
    fn until(&mut self, p: usize, q: usize, clock: Option<usize>, i: usize, tail: Tail) -> bool {
        for at in i..=self.pairs.len() {
            let Some(letter) = self.letter(at, tail) else {
                return true;
            };
            if self.counts_q(letter, clock) && self.satisfies(q, clock, at, tail) {
                return true;
            }
            if self.asks_p(letter, clock) && !self.satisfies(p, clock, at, tail) {
                return false;
            }
        }
        true
    }

    /// Under a clock c, Q counts only where the letter satisfies c.
    fn counts_q(&self, letter: Letter, clock: Option<usize>) -> bool {
        clock.is_none_or(|c| self.booleans.satisfies(letter, c))
    }

    /// Under a clock c, P is asked only where the letter of the bar satisfies c.
    fn asks_p(&self, letter: Letter, clock: Option<usize>) -> bool {
        let barred = match letter {
            Letter::Pair(pair) => Letter::Pair(pair),
            Letter::Top => Letter::Bottom,
            Letter::Bottom => Letter::Top,
        };
        clock.is_none_or(|c| self.booleans.satisfies(barred, c))
    }

    /// The letter at a position, if the word is that long.
    fn letter(&self, i: usize, tail: Tail) -> Option<Letter> {
        match self.pairs.get(i) {
            Some(&pair) => Some(Letter::Pair(pair)),
            None => tail.letter(),
        }
    }

    /// Position n stands for all later ones.
    fn position(&self, i: usize) -> usize {
        i.min(self.pairs.len())
    }

    /// Cuts inside the record do not depend on the tail.
    fn cut_name(&self, end: usize, tail: Tail) -> Name {
        if end <= self.pairs.len() {
            Name::Cut(end, Tail::Nothing)
        } else {
            Name::Cut(end, tail)
        }
    }

    /// The matching on a row of letters, made when first asked for.
    fn named(&mut self, name: Name) -> &mut Matching<'a> {
        let (table, extra) = (self.table, self.extra);
        let (pairs, booleans) = (&self.pairs, &self.booleans);
        self.matchings.entry(name).or_insert_with(|| {
            let letters = match name {
                Name::Whole(tail) => whole(pairs, tail, extra),
                Name::Cut(end, tail) => cut(pairs, tail, end, extra),
            };
            Matching::new(table, Rc::clone(booleans), letters)
        })
    }
}
