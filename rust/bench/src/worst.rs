//! The worst table found for each operator: the one that takes the judge longest a node. Each is made for a number of nodes and of samples, so that its growth shows.
use crate::cases::{Case, Input};
use crate::nodes::Nodes;

/// A worst table: its name, the nodes of at most so many, and the record of so many samples.
pub struct Worst {
    pub name: &'static str,
    nodes: fn(usize) -> Nodes,
    record: fn(usize) -> Vec<u64>,
}

/// One for each operator that has a rule of its own.
pub const ALL: [Worst; 11] = [
    REPEATS,
    THEN,
    FUSED,
    Worst {
        name: "implies",
        nodes: implies,
        record: every_third,
    },
    Worst {
        name: "either",
        nodes: either,
        record: all_set,
    },
    Worst {
        name: "empty",
        nodes: empty,
        record: all_set,
    },
    Worst {
        name: "strong",
        nodes: strong,
        record: every_third,
    },
    Worst {
        name: "until",
        nodes: until,
        record: up_to_the_last,
    },
    Worst {
        name: "nexttime",
        nodes: nexttime,
        record: every_third,
    },
    Worst {
        name: "booleans",
        nodes: booleans,
        record: every_third,
    },
    Worst {
        name: "signals",
        nodes: signals,
        record: every_third,
    },
];

pub const REPEATS: Worst = Worst {
    name: "repeats",
    nodes: repeats,
    record: from_half_to_half,
};

/// No worst table: the one where leaving out what is reached wins most.
pub const CHAINED: Worst = Worst {
    name: "chained",
    nodes: chained,
    record: half_to_steps,
};

pub const THEN: Worst = Worst {
    name: "then",
    nodes: then,
    record: by_turns,
};

pub const FUSED: Worst = Worst {
    name: "fused",
    nodes: fused,
    record: by_turns,
};

impl Worst {
    /// The table of at most m nodes on n samples, under a name.
    pub fn case(&self, name: String, m: usize, n: usize) -> Case {
        Case {
            name,
            inputs: vec![Input {
                table: (self.nodes)(m).table(),
                samples: (self.record)(n),
            }],
        }
    }
}

/// The signals of the tables of sequences: where an even and an odd start begins, where its matches end, where both do, all samples, and the last one.
struct Ways {
    from: [u8; 2],
    to: [u8; 2],
    to_both: u8,
    all: u8,
    last: u8,
}

fn ways(t: &mut Nodes) -> Ways {
    Ways {
        from: [t.signal(0), t.signal(1)],
        to: [t.signal(2), t.signal(3)],
        to_both: t.boolean_and(2, 3),
        all: t.signal(4),
        last: t.signal(5),
    }
}

/// `from ##0 1[*1:$] ##0 to`, for the even starts or for the odd ones: from each of its starts all its ends.
fn way(t: &mut Nodes, ways: &Ways, odd: usize) -> u8 {
    let from = t.letter(ways.from[odd]);
    let on = all_ends(t, ways.all);
    let to = t.letter(ways.to[odd]);
    let begun = t.fused(from, on);
    t.fused(begun, to)
}

/// Both ways. Two neighbouring starts go different ways, and each way lacks ends of the other: no start's ends cover those of the start above it.
fn both_ways(t: &mut Nodes, ways: &Ways) -> u8 {
    let even = way(t, ways, 0);
    let odd = way(t, ways, 1);
    t.either(even, odd)
}

/// `a[*1:$]`
fn all_ends(t: &mut Nodes, a: u8) -> u8 {
    let letter = t.letter(a);
    t.repeat(letter)
}

/// The bits of the sample at i by turns: the ways take turns with the starts, and each lacks one end in sixteen.
fn by_turns(n: usize) -> Vec<u64> {
    let sample = |i: usize| way_bits(i, n) | to_bits(i);
    (0..n).map(sample).collect()
}

/// Where an even or an odd start begins, the bit of all samples, and that of the last.
fn way_bits(i: usize, n: usize) -> u64 {
    let from = 1 << (i % 2);
    let last = if i + 1 == n { 32 } else { 0 };
    from | 16 | last
}

/// Where both ways end, but for one place in sixteen of either.
fn to_bits(i: usize) -> u64 {
    match i % 16 {
        7 => 8,
        15 => 4,
        _ => 12,
    }
}

/// The same, but starts are in the first half of the samples, and ends in the second.
fn from_half_to_half(n: usize) -> Vec<u64> {
    let sample = |i: usize| match i < n / 2 {
        true => way_bits(i, n),
        false => way_bits(i, n) & !3 | to_bits(i),
    };
    (0..n).map(sample).collect()
}

/// Ends that do not chain: from every start in the first half to every end in the second, from where it goes to the last place alone. So each end of a start is visited,
/// half the record by half the record.
fn repeats(m: usize) -> Nodes {
    let mut t = Nodes::default();
    let ways = ways(&mut t);
    let never = t.constant(0);
    let across = both_ways(&mut t, &ways);
    let on = all_ends(&mut t, ways.all);
    let last = t.letter(ways.last);
    let to_the_last = t.fused(on, last);
    let either = t.either(across, to_the_last);
    repeated(&mut t, either, never, m);
    t
}

/// The same starts, with ends that chain: each leads to the next, but for the last place, to which none leads. So of the ends of a start the first reaches all but the last
/// one, and a walk that leaves out what is reached visits two.
fn chained(m: usize) -> Nodes {
    let mut t = Nodes::default();
    let ways = ways(&mut t);
    let never = t.constant(0);
    let step = t.signal(STEP);
    let across = both_ways(&mut t, &ways);
    let next = t.letter(step);
    let either = t.either(across, next);
    repeated(&mut t, either, never, m);
    t
}

/// `[*1:$]` of the part, and of that `or` a letter that no sample has, again and again: a repetition of a repetition is known to be the same, and the letter hides it.
fn repeated(t: &mut Nodes, part: u8, never: u8, m: usize) {
    let mut top = t.repeat(part);
    while t.len() + 4 <= m {
        let letter = t.letter(never);
        let either = t.either(top, letter);
        top = t.repeat(either);
    }
    t.strong(top);
}

/// The signal of a sample that leads on to the next place.
const STEP: u8 = 6;

/// From half to half, with a step at each sample of the second half but the last.
fn half_to_steps(n: usize) -> Vec<u64> {
    let step = |i: usize| match n / 2 <= i && i + 1 < n {
        true => 1 << STEP,
        false => 0,
    };
    let half = from_half_to_half(n);
    (0..n).map(|i| half[i] | step(i)).collect()
}

/// All ends of all starts, walked at each `##1`. On the right stands `[*0] or b`, where b is there after all ends but those that the next place would add one to: so the
/// ends stay as they are, and almost all of them lead to something that has to be looked at.
fn then(m: usize) -> Nodes {
    let mut t = Nodes::default();
    let ways = ways(&mut t);
    let mut top = both_ways(&mut t, &ways);
    while t.len() + 6 <= m {
        let letter = t.letter(ways.all);
        let none = t.empty(letter);
        let one = t.letter(ways.to_both);
        let right = t.either(none, one);
        top = t.then(top, right);
    }
    t.strong(top);
    t
}

/// All ends of all starts, walked at each `##0`. On the right stands `1 or 1`, which takes no end away; a letter would need no walk.
fn fused(m: usize) -> Nodes {
    let mut t = Nodes::default();
    let ways = ways(&mut t);
    let mut top = both_ways(&mut t, &ways);
    while t.len() + 5 <= m {
        let first = t.letter(ways.all);
        let second = t.letter(ways.all);
        let right = t.either(first, second);
        top = t.fused(top, right);
    }
    t.strong(top);
    t
}

/// `|->` over a left side that is no letter. P is the same at no two tails, and nowhere all or none, so each start is held against three sets, and for tested against one
/// more: `strong(b) or weak(c ##1 0) or strong(d ##1 d[*1:$] ##1 0)`.
fn implies(m: usize) -> Nodes {
    let mut t = Nodes::default();
    let [a, b, c, d] = [0, 1, 2, 3].map(|s| t.signal(s));
    let never = t.constant(0);
    let held = strong_letter(&mut t, b);
    let failing = open(&mut t, c, d, never);
    let weak = t.weak(failing);
    let failing = open(&mut t, d, d, never);
    let strong = t.strong(failing);
    let either = t.or(weak, strong);
    let mut top = t.or(held, either);
    while t.len() + 3 <= m {
        let left = all_ends(&mut t, a);
        top = t.implies(left, top);
    }
    t
}

/// `first ##0 on[*1:$] ##1 never`: no match inside a record, and one beyond it from the first letters after which `on` is there to the end.
fn open(t: &mut Nodes, first: u8, on: u8, never: u8) -> u8 {
    let first = t.letter(first);
    let on = all_ends(t, on);
    let never = t.letter(never);
    let begun = t.fused(first, on);
    t.then(begun, never)
}

fn strong_letter(t: &mut Nodes, a: u8) -> u8 {
    let letter = t.letter(a);
    t.strong(letter)
}

/// Rows of 65 words joined, each with one letter more.
fn either(m: usize) -> Nodes {
    let mut t = Nodes::default();
    let a = t.signal(0);
    let mut top = t.letter(a);
    while t.len() + 3 <= m {
        let letter = t.letter(a);
        top = t.either(top, letter);
    }
    t.strong(top);
    t
}

/// `[*0]` above `[*0]`; a letter beside them, since strong asks for one.
fn empty(m: usize) -> Nodes {
    let mut t = Nodes::default();
    let a = t.signal(0);
    let mut top = t.letter(a);
    while t.len() + 4 <= m {
        top = t.empty(top);
    }
    let letter = t.letter(a);
    let either = t.either(top, letter);
    t.strong(either);
    t
}

/// As many strong sequences as there can be, joined by or.
fn strong(m: usize) -> Nodes {
    let mut t = Nodes::default();
    let a = t.signal(0);
    let mut top = strong_letter(&mut t, a);
    while t.len() + 3 <= m {
        let held = strong_letter(&mut t, a);
        top = t.or(held, top);
    }
    t
}

/// P holds at every sample and Q only at the last one.
fn until(m: usize) -> Nodes {
    let mut t = Nodes::default();
    let [a, b] = [0, 1].map(|s| t.signal(s));
    let mut top = strong_letter(&mut t, b);
    while t.len() + 3 <= m {
        let held = strong_letter(&mut t, a);
        top = t.until(held, top);
    }
    t
}

/// One node each.
fn nexttime(m: usize) -> Nodes {
    let mut t = Nodes::default();
    let a = t.signal(0);
    let mut top = strong_letter(&mut t, a);
    while t.len() < m {
        top = t.nexttime(top);
    }
    t
}

/// Booleans of booleans.
fn booleans(m: usize) -> Nodes {
    let mut t = Nodes::default();
    let mut top = t.signal(0);
    let b = t.signal(1);
    while t.len() + 2 < m {
        top = match t.len() % 3 {
            0 => t.boolean_not(top),
            1 => t.boolean_and(top, b),
            _ => t.boolean_or(top, b),
        };
    }
    strong_letter(&mut t, top);
    t
}

/// Each of the 64 signals, about twice, as one that rises or falls.
fn signals(m: usize) -> Nodes {
    let mut t = Nodes::default();
    while t.len() + 2 < m {
        let s = (t.len() / 2) as u8;
        match t.len() % 2 {
            0 => t.risen(s),
            _ => t.fallen(s),
        };
    }
    strong_letter(&mut t, 0);
    t
}

/// All signals in every sample.
fn all_set(n: usize) -> Vec<u64> {
    vec![u64::MAX; n]
}

/// Each signal in two samples of three, no two alike.
fn every_third(n: usize) -> Vec<u64> {
    let bit = |i: usize, s: usize| u64::from(!(i + s).is_multiple_of(3)) << s;
    let sample = |i| (0..64).map(|s| bit(i, s)).sum();
    (0..n).map(sample).collect()
}

/// Signal 0 in every sample, and signal 1 in the last.
fn up_to_the_last(n: usize) -> Vec<u64> {
    (0..n).map(|i| if i + 1 == n { 3 } else { 1 }).collect()
}
