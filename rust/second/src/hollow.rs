//! Refusal 9: strong, weak and `|->` need a sequence that matches some ⊤ letters.

use crate::derived::{Bounds, Derived};
use crate::matching::{unrolled_letters, Matching};
use crate::node::{clocks, Node, Sort};
use crate::words::{whole, Booleans, Tail};
use std::rc::Rc;

/// The lowest node over a sequence that matches no ⊤ letters, by matching them,
/// in a table with no derived node.
pub fn hollow_by_letters(table: &[Node]) -> Option<usize> {
    let clocks = clocks(table);
    let tops = whole(&[], Tail::Top, unrolled_letters(table));
    let booleans = Rc::new(Booleans::new(table, &[]));
    let mut matching = Matching::new(table, booleans, tops);
    let mut is_hollow = |index: usize| match table[index] {
        Node::Strong(r) | Node::Weak(r) | Node::Implies(r, _) => {
            let ends = matching.ends(r, clocks[index], 0);
            !ends.iter().any(|&end| end >= 1)
        }
        _ => false,
    };
    (0..table.len()).find(|&index| is_hollow(index))
}

/// Which numbers of ⊤ letters a sequence matches: none at all, some, or both.
///
/// ⊤ satisfies every boolean and every clock and its negation, so that matches
/// only need their letters to add up.
#[derive(Clone, Copy, Debug, Default, PartialEq, Eq)]
pub struct Tops {
    /// It matches no letters.
    pub none: bool,
    /// It matches one or more letters.
    pub some: bool,
}

/// The lowest node whose expansion has a strong, weak or `|->` over a sequence
/// that matches no ⊤ letters, without expanding anything.
pub fn hollow_by_tops(table: &[Node]) -> Option<usize> {
    let tops = all_tops(table);
    (0..table.len()).find(|&index| match table[index] {
        Node::Strong(r) | Node::Weak(r) | Node::Implies(r, _) => !tops[r].some,
        Node::Derived(Derived::Followed(r, _)) => !tops[r].some,
        Node::Derived(Derived::ImpliesNext(r, _) | Derived::FollowedNext(r, _)) => {
            !tops[r].then(LETTER).some
        }
        // What always and its kin bring is weak over a letter.
        _ => false,
    })
}

/// What each sequence of a table matches; other nodes match nothing.
pub fn all_tops(table: &[Node]) -> Vec<Tops> {
    let mut tops: Vec<Tops> = Vec::with_capacity(table.len());
    for node in table {
        let found = match *node {
            Node::Letter(_) => LETTER,
            Node::Then(r, s) => tops[r].then(tops[s]),
            Node::Fuse(r, s) => tops[r].fuse(tops[s]),
            Node::Either(r, s) => tops[r].or(tops[s]),
            Node::Empty(_) => NOTHING_BUT_NONE,
            Node::Repeat(r) | Node::ClockSequence(_, r) => tops[r],
            Node::Derived(derived) if node.sort() == Sort::Sequence => derived_tops(derived, &tops),
            _ => Tops::default(),
        };
        tops.push(found);
    }
    tops
}

/// What the expansion of a derived sequence matches.
fn derived_tops(derived: Derived, below: &[Tops]) -> Tops {
    match derived {
        Derived::Times(r, bounds) => below[r].bounded(bounds),
        Derived::Delay(r, s, bounds) => delay_tops(below[r], below[s], bounds),
        Derived::Goto(_, m) => LETTER.bounded(Bounds { m, n: m }),
        Derived::Nonconsecutive(_, m) => {
            let goto = LETTER.bounded(Bounds { m, n: m });
            goto.then(NOTHING_BUT_NONE.or(LETTER))
        }
        _ => Tops::default(),
    }
}

/// What `R ##[m:n] S` matches.
fn delay_tops(r: Tops, s: Tops, Bounds { m, n }: Bounds) -> Tops {
    if n == 0 {
        return r.fuse(s);
    }
    if m == 0 {
        return r.fuse(s).or(delay_tops(r, s, Bounds { m: 1, n }));
    }
    let (m, n) = (m - 1, n - 1);
    r.then(LETTER.bounded(Bounds { m, n })).then(s)
}

/// A letter matches one letter, and under a clock more.
const LETTER: Tops = Tops {
    none: false,
    some: true,
};

/// `[*0]` matches no letters only.
const NOTHING_BUT_NONE: Tops = Tops {
    none: true,
    some: false,
};

impl Tops {
    /// Whether there is any match.
    fn any(self) -> bool {
        self.none || self.some
    }

    /// `##1`: one after the other.
    fn then(self, next: Tops) -> Tops {
        Tops {
            none: self.none && next.none,
            some: self.any() && next.any() && (self.some || next.some),
        }
    }

    /// `##0`: both have the letter that they share.
    fn fuse(self, next: Tops) -> Tops {
        Tops {
            none: false,
            some: self.some && next.some,
        }
    }

    /// or: either.
    fn or(self, other: Tops) -> Tops {
        Tops {
            none: self.none || other.none,
            some: self.some || other.some,
        }
    }

    /// `[*m:n]`: k in a row, for some k from m to n.
    fn bounded(self, Bounds { m, n }: Bounds) -> Tops {
        let mut in_a_row = NOTHING_BUT_NONE;
        let mut found = Tops::default();
        for k in 0..=n {
            if k >= m {
                found = found.or(in_a_row);
            }
            in_a_row = in_a_row.then(self);
        }
        found
    }
}
