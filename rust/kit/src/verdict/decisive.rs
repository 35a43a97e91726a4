//! The decisive part of an assertion on a record: the lowest node whose own answer explains the level.
//!
//! The own answer of a node at a sample is the judge's level of its part ([`Assertion::part`]) from
//! there on. By docs/FORMAT.md (What a property says) the level of every property is made of its operands' levels
//! (n is the number of samples; under a clock, samples are ticks):
//!
//! | property | its level at sample i |
//! |---|---|
//! | `not P` | 3 minus that of P |
//! | `P and Q`, `P or Q` | the lower, the higher of the two |
//! | `@(c) P` | that of P |
//! | `nexttime P` | that of P at the next sample; 2 where i is n, or where the clock has no two ticks from i on |
//! | `P until Q` | the higher of Q and the rest, which is the lower of P and the until at the next sample; 2 at n |
//! | `R \|-> P` | the lowest of P at the last sample of each match of R from i; at most 2 where R may match on |
//!
//! Bars and tails are in this: `not` swaps the tails and so turns the levels round; the left side of
//! `|->` matches on the bar, so a match that may still come counts against 3 and nothing else; at n
//! every property has level 1 or 2, because only the tail is left.
//!
//! The walk goes down from the root at sample 0. It asks why the level is not higher for 0, 1 and 2
//! and why it is so high for 3, and `not` turns the question round. A part that is *settled*, that is
//! closed at 3 or 0 earlier than the assertion, no longer counts: nothing can change it, and it is
//! passed over. L is the node's level.
//!
//! | node | why not higher | why so high |
//! |---|---|---|
//! | `not P`, `@(c) P` | P | P |
//! | `P and Q` | the first that has L | the one whose other is settled at 3, else stop |
//! | `P or Q` | the one whose other is settled at 0, else stop | the first that has L |
//! | `nexttime P` | P at the next sample, or second tick; stop where there is none | the same |
//! | `P until Q` | see `until_not_higher` | see `until_so_high` |
//! | `R \|-> P` | P at the first match of R where it has L, else stop | P at the one match of R where it is not settled at 3, and R matches no more; else stop |
//! | `strong(R)`, `weak(R)` | stop | stop |
//!
//! Derived operators are written out first (docs/BLOCKS.md), and the walk goes through what they are written
//! out to. Where it ends inside of that, the part is the one with the derived operator. `P s_until Q` is
//! written out to an `and` with `P until Q` on its left. It has level 3 exactly where that has, so there the
//! walk goes on, and does not stop as at another `and`.
//!
//! An assertion that is closed is explained on the samples up to that at which it closed. So these hold:
//!
//! - the decisive part has the assertion's level, or 3 minus it under an odd number of `not`s;
//! - where the assertion is closed, the part closed at the same sample;
//! - where it is open, the assertion is never above the part, however the record goes on (turned
//!   round under `not`): what breaks the part breaks the assertion.
use super::asked::Asked;
use super::awaiting::Awaiting;
use super::Verdict;
use crate::assertion::{Assertion, Expanded, Operator};
use xistomar::{Level, Refusal};

/// The decisive part.
#[derive(Clone, Copy, Debug, PartialEq, Eq)]
pub struct Decisive {
    /// The node of the table.
    pub node: usize,
    /// The sample from which the part was asked; the number of samples where none is left for it.
    pub from: usize,
    /// Its own level there.
    pub level: Level,
    /// Whether it stands under an odd number of `not`s.
    pub turned: bool,
    /// The sample at which it closed, which is the assertion's.
    pub closed: Option<usize>,
    /// The first and the last sample of its match, for `strong` and `weak` that matched.
    pub matched: Option<(usize, usize)>,
    /// Whether anything was asked of it: not of an implication whose right side is not asked from there.
    pub asked: bool,
    /// What a `|=>` or `#=#` still awaits.
    pub awaiting: Option<Awaiting>,
    /// The first sample from which what an s_eventually awaits has the same level.
    pub since: Option<usize>,
}

/// Finds the decisive part of an assertion on the samples of its verdict.
pub fn decisive(
    expanded: &Expanded,
    samples: &[u64],
    verdict: &Verdict,
) -> Result<Decisive, Refusal> {
    let assertion = expanded.written();
    let closed = verdict.closed();
    let count = closed.map_or(samples.len(), |sample| sample + 1);
    let samples = samples.get(..count).unwrap_or(samples);
    let mut walk = Walk {
        expanded,
        assertion,
        asked: Asked::new(assertion, samples, closed.unwrap_or(count)),
        open: closed.is_none(),
        side: side_of(verdict.judgement.level),
        node: assertion.root(),
        from: 0,
    };
    let mut given = walk.stand();
    while let Some((node, from)) = walk.step()? {
        (walk.node, walk.from) = (node, from);
        given = walk.stand().or(given);
    }
    let stand = given.unwrap_or_default();
    (walk.node, walk.from) = (stand.written, stand.from);
    let level = walk.asked.level(walk.node, walk.from)?;
    Ok(Decisive {
        node: stand.node,
        from: stand.from,
        level,
        turned: stand.so_high != (side_of(verdict.judgement.level) == Side::SoHigh),
        closed,
        matched: walk.matched(level)?,
        asked: walk.asks()?,
        awaiting: walk.awaiting()?,
        since: walk.since(level)?,
    })
}

/// A place of the walk that stands for a node of the table.
#[derive(Clone, Copy, Default)]
struct Stand {
    /// The node of the table.
    node: usize,
    /// The node of the expansion.
    written: usize,
    from: usize,
    /// Whether it was asked why the level is so high.
    so_high: bool,
}

/// What is asked of a node.
#[derive(Clone, Copy, PartialEq, Eq)]
enum Side {
    /// Why is its level not higher?
    NotHigher,
    /// Why is its level so high?
    SoHigh,
}

/// What is asked of the root.
fn side_of(level: Level) -> Side {
    match level {
        Level::Strong => Side::SoHigh,
        _ => Side::NotHigher,
    }
}

/// Where to go on: a node and the sample from which it is asked.
type Next = Result<Option<(usize, usize)>, Refusal>;

struct Walk<'a> {
    expanded: &'a Expanded,
    /// The assertion of the expansion.
    assertion: &'a Assertion,
    asked: Asked<'a>,
    /// Whether the assertion is open.
    open: bool,
    side: Side,
    node: usize,
    from: usize,
}

impl Walk<'_> {
    /// Where the walk is, if that stands for a node of the table.
    fn stand(&self) -> Option<Stand> {
        let stand = |node| Stand {
            node,
            written: self.node,
            from: self.from,
            so_high: self.side == Side::SoHigh,
        };
        self.expanded.stands_for(self.node).map(stand)
    }

    /// The operand that explains the node, if one alone does. Operands are below their node, so the
    /// walk ends.
    fn step(&mut self) -> Next {
        let node = self.assertion.node(self.node);
        let (x, y) = (usize::from(node.x), usize::from(node.y));
        let not_higher = self.side == Side::NotHigher;
        match node.operator {
            Operator::ClockedProperty => Ok(Some((y, self.from))),
            Operator::PropertyNot => {
                self.side = match self.side {
                    Side::NotHigher => Side::SoHigh,
                    Side::SoHigh => Side::NotHigher,
                };
                Ok(Some((x, self.from)))
            }
            Operator::PropertyAnd if not_higher => self.first(x, y),
            Operator::PropertyAnd if self.is_held_until() => Ok(Some((x, self.from))),
            Operator::PropertyAnd => self.beside(x, y, Level::Strong),
            Operator::PropertyOr if not_higher => self.beside(x, y, Level::Broken),
            Operator::PropertyOr => self.first(x, y),
            Operator::Nexttime => self.nexttime(x),
            Operator::Until if not_higher => self.until_not_higher(x, y),
            Operator::Until => self.until_so_high(x, y),
            Operator::Implies if not_higher => self.implies_not_higher(x, y),
            Operator::Implies => self.implies_so_high(x, y),
            _ => Ok(None),
        }
    }

    /// Whether the `and` is that of an s_until, and closed.
    fn is_held_until(&self) -> bool {
        !self.open && self.expanded.operator(self.node) == Some(Operator::StrongUntil)
    }

    fn level(&mut self) -> Result<Level, Refusal> {
        self.asked.level(self.node, self.from)
    }

    /// The first operand that has the node's level.
    fn first(&mut self, x: usize, y: usize) -> Next {
        let level = self.level()?;
        let found = match self.asked.level(x, self.from)? == level {
            true => x,
            false => y,
        };
        Ok(Some((found, self.from)))
    }

    /// The operand beside one that is settled at this level and no longer counts.
    fn beside(&mut self, x: usize, y: usize, level: Level) -> Next {
        for (settled, other) in [(x, y), (y, x)] {
            if self.asked.settled(settled, self.from, level)? {
                return Ok(Some((other, self.from)));
            }
        }
        Ok(None)
    }

    fn nexttime(&mut self, p: usize) -> Next {
        let positions = self.asked.positions(self.node, self.from)?;
        let next = match self.assertion.clock(self.node) {
            None => positions.first().map(|at| at + 1),
            Some(_) => positions.get(1).copied(),
        };
        Ok(next.map(|next| (p, next)))
    }

    /// As long as Q is settled at 0, P at the first sample where it has the node's level. At a sample
    /// where Q is not: Q, if the rest is settled at 0. Else both count, which stops the walk where the
    /// assertion is open; where it is closed, P and Q closed at the same sample, and it is P that was
    /// asked there.
    fn until_not_higher(&mut self, p: usize, q: usize) -> Next {
        let level = self.level()?;
        for at in self.asked.positions(self.node, self.from)? {
            if !self.asked.settled(q, at, Level::Broken)? {
                if self.settled_rest(p, at)? {
                    return Ok(Some((q, at)));
                }
                if self.open {
                    return Ok(None);
                }
            }
            if self.asked.level(p, at)? == level {
                return Ok(Some((p, at)));
            }
        }
        Ok(None)
    }

    /// Whether P at this sample, or the until at the next, is settled at 0.
    fn settled_rest(&mut self, p: usize, at: usize) -> Result<bool, Refusal> {
        Ok(self.asked.settled(p, at, Level::Broken)?
            || self.asked.settled(self.node, at + 1, Level::Broken)?)
    }

    /// As long as P is settled at 3, Q at the first sample where it has the node's level. At a sample
    /// where P is not: P, if the until at the next is settled at 3. Else both count, which stops the walk
    /// where the assertion is open; where it is closed, it is a later Q that let P go.
    fn until_so_high(&mut self, p: usize, q: usize) -> Next {
        let level = self.level()?;
        for at in self.asked.positions(self.node, self.from)? {
            if self.asked.level(q, at)? == level {
                return Ok(Some((q, at)));
            }
            if !self.asked.settled(p, at, Level::Strong)? {
                if self.asked.settled(self.node, at + 1, Level::Strong)? {
                    return Ok(Some((p, at)));
                }
                if self.open {
                    return Ok(None);
                }
            }
        }
        Ok(None)
    }

    /// P at the first match of R where it has the node's level. Where it has none, it is a later match
    /// that may still break the node.
    fn implies_not_higher(&mut self, r: usize, p: usize) -> Next {
        let level = self.level()?;
        for last in self.last_samples(r)? {
            if self.asked.level(p, last)? == level {
                return Ok(Some((p, last)));
            }
        }
        Ok(None)
    }

    /// P at the one match of R where it is not settled at 3, if R matches no more.
    fn implies_so_high(&mut self, r: usize, p: usize) -> Next {
        if self.asked.matches(r, self.from)?.top {
            return Ok(None);
        }
        let mut counting = Vec::new();
        for last in self.last_samples(r)? {
            if !self.asked.settled(p, last, Level::Strong)? {
                counting.push((p, last));
            }
        }
        Ok(match counting.as_slice() {
            [alone] => Some(*alone),
            _ => None,
        })
    }

    /// The last sample of each match of a sequence, from the node's sample on, that is not empty.
    fn last_samples(&mut self, r: usize) -> Result<Vec<usize>, Refusal> {
        let from = self.from;
        let ends = self.asked.matches(r, from)?.ends();
        Ok(ends.filter(|end| *end > from).map(|end| end - 1).collect())
    }

    /// Whether the part where the walk ended asks anything.
    fn asks(&mut self) -> Result<bool, Refusal> {
        let Some(implication) = self.expanded.implication(self.node) else {
            return Ok(true);
        };
        let left = usize::from(self.assertion.node(implication).x);
        Ok(!self.last_samples(left)?.is_empty())
    }

    /// What the part where the walk ended still awaits, if it is a `|=>` or `#=#`.
    fn awaiting(&mut self) -> Result<Option<Awaiting>, Refusal> {
        let operator = self.expanded.operator(self.node);
        let later = operator.is_some_and(Operator::asks_later);
        let implication = self.expanded.implication(self.node);
        let Some(implication) = implication.filter(|_| later) else {
            return Ok(None);
        };
        let mut matches = Vec::new();
        let left = self.expanded.left(implication);
        for end in self.asked.matches(left, self.from)?.ends() {
            if self.asked.positions(implication, end)?.is_empty() {
                matches.push((self.from, end));
            }
        }
        let clocked = self.assertion.clock(implication).is_some();
        Ok(Awaiting::of(matches, clocked))
    }

    /// The first sample from which what is awaited has this level, if the walk ended at an s_eventually.
    fn since(&mut self, level: Level) -> Result<Option<usize>, Refusal> {
        let Some(awaited) = self.expanded.awaited(self.node) else {
            return Ok(None);
        };
        for at in self.asked.positions(self.node, self.from)? {
            if self.asked.level(awaited, at)? == level {
                return Ok(Some(at));
            }
        }
        Ok(None)
    }

    /// The shortest match of the part where the walk ended, for `strong` and `weak` at level 3.
    fn matched(&mut self, level: Level) -> Result<Option<(usize, usize)>, Refusal> {
        let node = self.assertion.node(self.node);
        let promise = matches!(node.operator, Operator::Strong | Operator::Weak);
        if !promise || level != Level::Strong {
            return Ok(None);
        }
        let last = self.last_samples(usize::from(node.x))?;
        Ok(last.first().map(|last| (self.from, *last)))
    }
}
