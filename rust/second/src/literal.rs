//! The definitions once more, as literally as can be, for tests only.
//!
//! Stretches are slices, words are letters with a tail, and nothing is
//! remembered. It serves only tables and records that are quite small.

use crate::node::Node;
use crate::words::{Letter, Pair, Tail};

/// The letters of a record: letter i is sample i - 1, 0 where there is none,
/// and sample i.
pub fn letters(record: &[u64]) -> Vec<Letter> {
    let sample = |i: usize| record.get(i).copied().unwrap_or(0);
    let letter = |i: usize| {
        Letter::Pair(Pair {
            before: sample(i.wrapping_sub(1)),
            sample: sample(i),
        })
    };
    (0..record.len()).map(letter).collect()
}

/// A word: some letters, then the tail for ever.
#[derive(Clone)]
pub struct Word {
    pub letters: Vec<Letter>,
    pub tail: Tail,
}

impl Word {
    /// The first k letters, if the word has as many.
    pub fn prefix(&self, k: usize) -> Option<Vec<Letter>> {
        let mut letters = self.letters.clone();
        while letters.len() < k {
            letters.push(self.tail.letter()?);
        }
        letters.truncate(k);
        Some(letters)
    }

    /// The word without its first i letters.
    pub fn suffix(&self, i: usize) -> Word {
        let letters = self.letters.iter().skip(i).copied().collect();
        let tail = self.tail;
        Word { letters, tail }
    }

    /// The word with ⊤ and ⊥ swapped.
    fn bar(&self) -> Word {
        Word {
            letters: self.letters.iter().map(|&letter| bar(letter)).collect(),
            tail: self.tail.bar(),
        }
    }
}

/// The letter with ⊤ and ⊥ swapped.
fn bar(letter: Letter) -> Letter {
    match letter {
        Letter::Pair(pair) => Letter::Pair(pair),
        Letter::Top => Letter::Bottom,
        Letter::Bottom => Letter::Top,
    }
}

/// A table with a bound on the letters of a tail that are looked at.
pub struct Literal<'a> {
    pub table: &'a [Node],
    pub bound: usize,
}

impl Literal<'_> {
    /// Whether a letter satisfies a boolean.
    fn letter(&self, b: usize, letter: Letter) -> bool {
        match letter {
            Letter::Pair(pair) => self.pair(b, pair),
            Letter::Top => true,
            Letter::Bottom => false,
        }
    }

    /// Whether a letter satisfies not c.
    fn letter_not(&self, c: usize, letter: Letter) -> bool {
        match letter {
            Letter::Pair(pair) => !self.pair(c, pair),
            Letter::Top => true,
            Letter::Bottom => false,
        }
    }

    /// The value of a boolean on a pair.
    fn pair(&self, b: usize, pair: Pair) -> bool {
        let Pair { before, sample } = pair;
        match self.table[b] {
            Node::Constant(x) => x == 1,
            Node::Signal(s) => sample & 1 << s != 0,
            Node::Risen(s) => sample & !before & 1 << s != 0,
            Node::Fallen(s) => before & !sample & 1 << s != 0,
            Node::Not(x) => !self.pair(x, pair),
            Node::And(x, y) => self.pair(x, pair) && self.pair(y, pair),
            Node::Or(x, y) => self.pair(x, pair) || self.pair(y, pair),
            _ => unreachable!("only booleans are asked for here"),
        }
    }

    /// Whether a stretch matches a sequence under a clock.
    pub fn matches(&self, node: usize, clock: Option<usize>, stretch: &[Letter]) -> bool {
        let long = stretch.len();
        match self.table[node] {
            Node::Letter(b) => self.matches_letter(b, clock, stretch),
            Node::Then(r, s) => (0..=long).any(|k| {
                self.matches(r, clock, &stretch[..k]) && self.matches(s, clock, &stretch[k..])
            }),
            Node::Fuse(r, s) => (0..long).any(|k| {
                self.matches(r, clock, &stretch[..=k]) && self.matches(s, clock, &stretch[k..])
            }),
            Node::Either(r, s) => {
                self.matches(r, clock, stretch) || self.matches(s, clock, stretch)
            }
            Node::Empty(_) => stretch.is_empty(),
            Node::Repeat(r) => {
                self.matches(r, clock, stretch)
                    || (1..long).any(|k| {
                        self.matches(r, clock, &stretch[..k])
                            && self.matches(node, clock, &stretch[k..])
                    })
            }
            Node::ClockSequence(c, r) => self.matches(r, Some(c), stretch),
            _ => unreachable!("only sequences are asked for here"),
        }
    }

    /// Whether a stretch matches a letter node.
    fn matches_letter(&self, b: usize, clock: Option<usize>, stretch: &[Letter]) -> bool {
        match (clock, stretch.split_last()) {
            (_, None) => false,
            (None, Some((&last, earlier))) => earlier.is_empty() && self.letter(b, last),
            (Some(c), Some((&last, earlier))) => {
                let waits = earlier.iter().all(|&letter| self.letter_not(c, letter));
                waits && self.letter(c, last) && self.letter(b, last)
            }
        }
    }

    /// Whether a word satisfies a property under a clock.
    pub fn satisfies(&self, node: usize, clock: Option<usize>, w: &Word) -> bool {
        match self.table[node] {
            Node::Strong(r) => self.strong(r, clock, w),
            Node::Weak(r) => self.lengths(w).all(|k| match w.prefix(k) {
                None => true,
                Some(letters) => {
                    let tail = Tail::Top;
                    self.strong(r, clock, &Word { letters, tail })
                }
            }),
            Node::NotProperty(p) => !self.satisfies(p, clock, &w.bar()),
            Node::OrProperty(p, q) => self.satisfies(p, clock, w) || self.satisfies(q, clock, w),
            Node::AndProperty(p, q) => self.satisfies(p, clock, w) && self.satisfies(q, clock, w),
            Node::Implies(r, p) => self.lengths(w).all(|k| match w.bar().prefix(k) {
                Some(prefix) if self.matches(r, clock, &prefix) => {
                    self.satisfies(p, clock, &w.suffix(k - 1))
                }
                _ => true,
            }),
            Node::Nexttime(p) => self.nexttime(p, clock, w),
            Node::Until(p, q) => self.until(p, q, clock, w),
            Node::ClockProperty(c, p) => self.satisfies(p, Some(c), w),
            _ => unreachable!("only properties are asked for here"),
        }
    }

    /// The lengths of the non-empty prefixes that are looked at.
    fn lengths(&self, w: &Word) -> std::ops::RangeInclusive<usize> {
        1..=w.letters.len() + self.bound
    }

    /// Whether some non-empty prefix matches.
    fn strong(&self, r: usize, clock: Option<usize>, w: &Word) -> bool {
        self.lengths(w).any(|k| match w.prefix(k) {
            Some(prefix) => self.matches(r, clock, &prefix),
            None => false,
        })
    }

    /// nexttime, with and without a clock.
    fn nexttime(&self, p: usize, clock: Option<usize>, w: &Word) -> bool {
        let Some(c) = clock else {
            return w.prefix(1).is_none() || self.satisfies(p, None, &w.suffix(1));
        };
        match self.ticks(c, w)[..] {
            [_, second, ..] => self.satisfies(p, clock, &w.suffix(second)),
            _ => w.tail != Tail::Bottom,
        }
    }

    /// The sample positions that satisfy c.
    fn ticks(&self, c: usize, w: &Word) -> Vec<usize> {
        let is_tick = |&at: &usize| match w.letters[at] {
            Letter::Pair(pair) => self.pair(c, pair),
            _ => false,
        };
        (0..w.letters.len()).filter(is_tick).collect()
    }

    /// until, with and without a clock: both halves of the rule.
    fn until(&self, p: usize, q: usize, clock: Option<usize>, w: &Word) -> bool {
        let first = |at: usize| w.suffix(at).prefix(1).map(|prefix| prefix[0]);
        let inside: Vec<(usize, Letter)> = (0..w.letters.len() + 2)
            .filter_map(|at| first(at).map(|letter| (at, letter)))
            .collect();
        let has_q = |&(at, letter): &(usize, Letter)| {
            clock.is_none_or(|c| self.letter(c, letter)) && self.satisfies(q, clock, &w.suffix(at))
        };
        let has_p = |&(at, letter): &(usize, Letter)| {
            let asked = clock.is_none_or(|c| self.letter(c, bar(letter)));
            !asked || self.satisfies(p, clock, &w.suffix(at))
        };
        let met = (0..inside.len()).any(|at| has_q(&inside[at]) && inside[..at].iter().all(has_p));
        met || inside.iter().all(has_p)
    }

    /// Whether a word without a tail tests a property under a clock.
    pub fn tested(&self, node: usize, clock: Option<usize>, w: &Word) -> bool {
        match self.table[node] {
            Node::Strong(_) | Node::Weak(_) => true,
            Node::NotProperty(p) => self.tested(p, clock, w),
            Node::OrProperty(p, q) | Node::AndProperty(p, q) => self.either_tested(p, q, clock, w),
            Node::Implies(r, p) => (1..=w.letters.len()).any(|k| {
                self.matches(r, clock, &w.letters[..k]) && self.tested(p, clock, &w.suffix(k - 1))
            }),
            Node::Nexttime(p) => match clock {
                None => !w.letters.is_empty() && self.tested(p, None, &w.suffix(1)),
                Some(c) => match self.ticks(c, w)[..] {
                    [_, second, ..] => self.tested(p, clock, &w.suffix(second)),
                    _ => false,
                },
            },
            Node::Until(p, q) => self.until_tested(p, q, clock, w),
            Node::ClockProperty(c, p) => self.tested(p, Some(c), w),
            _ => unreachable!("only properties are asked for here"),
        }
    }

    /// Whether a word tests one of two properties.
    fn either_tested(&self, p: usize, q: usize, clock: Option<usize>, w: &Word) -> bool {
        self.tested(p, clock, w) || self.tested(q, clock, w)
    }

    /// Whether a word tests P until Q: some position tests either, and each
    /// earlier one satisfies P and not Q.
    fn until_tested(&self, p: usize, q: usize, clock: Option<usize>, w: &Word) -> bool {
        let positions = match clock {
            None => (0..w.letters.len()).collect(),
            Some(c) => self.ticks(c, w),
        };
        let tests = |at: usize| self.either_tested(p, q, clock, &w.suffix(at));
        let goes_on = |&at: &usize| {
            let w = w.suffix(at);
            self.satisfies(p, clock, &w) && !self.satisfies(q, clock, &w.bar())
        };
        (0..positions.len()).any(|k| tests(positions[k]) && positions[..k].iter().all(goes_on))
    }
}
