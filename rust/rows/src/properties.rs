//! A property's three words: the suffixes that satisfy it with no tail, with a ⊤ tail and with a ⊥ tail.
use crate::below::Below;
use crate::operators::*;
use crate::words::starts_where;
use crate::TOP;

/// The suffixes, a set of the places 0 to n for each tail.
#[derive(Clone, Copy)]
pub struct Suffixes {
    pub neutral: u64,
    pub weak: u64,
    pub strong: u64,
}

/// The words of a property, from what stands below it.
#[inline(never)]
pub fn words(below: &Below, n: usize, op: u8, x: u8, y: u8) -> Suffixes {
    let asked = |v: u8| {
        let &[neutral, weak, strong, ..] = below.row(v);
        Suffixes {
            neutral,
            weak,
            strong,
        }
    };
    match op {
        STRONG => strong(below.starts(x), below.row(x)[TOP]),
        WEAK => weak(below.starts(x), below.row(x)[TOP], n),
        NOT => not(asked(x), n),
        OR => each(asked(x), asked(y), |p, q| p | q),
        AND => each(asked(x), asked(y), |p, q| p & q),
        IMPLIES => implies(below, x, asked(y), n),
        NEXTTIME => nexttime(asked(x), n),
        _ => until(asked(x), asked(y), n),
    }
}

fn each(p: Suffixes, q: Suffixes, joined: impl Fn(u64, u64) -> u64) -> Suffixes {
    Suffixes {
        neutral: joined(p.neutral, q.neutral),
        weak: joined(p.weak, q.weak),
        strong: joined(p.strong, q.strong),
    }
}

/// A match that is not empty: inside the record or, with a ⊤ tail, on into its letters.
fn strong(inside: u64, open: u64) -> Suffixes {
    Suffixes {
        neutral: inside,
        weak: inside | open,
        strong: inside,
    }
}

/// The longest prefix, followed by ⊤, decides; at the end of a record with no tail there is no prefix to ask.
fn weak(inside: u64, open: u64, n: usize) -> Suffixes {
    let open = inside | open;
    Suffixes {
        neutral: open | 1 << n,
        weak: open,
        strong: inside,
    }
}

/// The bar of a word swaps the tails.
fn not(p: Suffixes, n: usize) -> Suffixes {
    let all = u64::MAX >> (63 - n);
    Suffixes {
        neutral: all & !p.neutral,
        weak: all & !p.strong,
        strong: all & !p.weak,
    }
}

/// P is asked at the last letter of each match that is not empty. Two tails in which P fails at the same samples are asked once.
fn implies(below: &Below, x: u8, p: Suffixes, n: usize) -> Suffixes {
    let all = u64::MAX >> (63 - n);
    let inside = all >> 1;
    let fails = each(p, p, |p, _| inside & !p);
    let neutral = below.asking(x, fails.neutral, n);
    let weak = match fails.weak == fails.neutral {
        true => neutral,
        false => below.asking(x, fails.weak, n),
    };
    let strong = match fails.strong == fails.neutral {
        true => neutral,
        false => below.asking(x, fails.strong, n),
    };
    // With a ⊥ tail R is matched on the bar, among letters ⊤ too, and P is then asked in the tail.
    let in_tail = if p.strong >> n & 1 == 0 {
        below.row(x)[TOP]
    } else {
        0
    };
    Suffixes {
        neutral: all & !neutral,
        weak: all & !weak,
        strong: all & !(strong | in_tail),
    }
}

impl Below<'_> {
    /// The starts from which a match of the sequence that is not empty has its last letter among the samples of a set. Of a letter that is its one letter, and where
    /// the set has all samples or none there is nothing to look for.
    pub fn asking(&self, x: u8, set: u64, n: usize) -> u64 {
        let inside = (1 << n) - 1;
        if set & inside == 0 {
            return 0;
        }
        match self.op(x) {
            LETTER => self.starts(x) & set,
            _ if set & inside == inside => self.starts(x),
            _ => starts_where(self.row(x), n, |ends, place| (ends & !place) >> 1 & set),
        }
    }
}

/// P one position on; position n of a tail is followed by itself.
fn nexttime(p: Suffixes, n: usize) -> Suffixes {
    let last = 1 << n;
    Suffixes {
        neutral: p.neutral >> 1 | last,
        weak: p.weak >> 1 | p.weak & last,
        strong: p.strong >> 1 | p.strong & last,
    }
}

/// U(i) = q(i), or p(i) and U(i + 1); position n is yes with no tail, and with a tail where P or Q holds there.
fn until(p: Suffixes, q: Suffixes, n: usize) -> Suffixes {
    let last = 1 << n;
    let inside = last - 1;
    let runs = each(p, p, |p, _| p & inside);
    let ends = Suffixes {
        neutral: q.neutral & inside | last,
        weak: q.weak & inside | (p.weak | q.weak) & last,
        strong: q.strong & inside | (p.strong | q.strong) & last,
    };
    each(runs, ends, leading_up)
}

/// The places from which a run of the places of `runs`, possibly of none, leads up to one of `out`. On the words turned round an addition carries from the place before
/// one of `out` through the run; what it leaves alone inside a run are places where it began once more.
pub fn leading_up(runs: u64, out: u64) -> u64 {
    let (runs, out) = (runs.reverse_bits(), out.reverse_bits());
    let begins = runs & out << 1;
    let carried = runs & !runs.wrapping_add(begins);
    (out | begins | carried).reverse_bits()
}
