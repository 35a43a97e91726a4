//! The tables and records that are measured.
use crate::nodes::{rewritten_count, Nodes};
use crate::random::{self, Kind, Random};
use crate::worst;

/// The samples of the longest record.
pub const LONGEST: usize = 63;

/// A table and the samples that it is judged on.
pub struct Input {
    pub table: Vec<u8>,
    pub samples: Vec<u64>,
}

/// A named case: its time is the average over its inputs.
pub struct Case {
    pub name: String,
    pub inputs: Vec<Input>,
}

impl Input {
    /// The rewritten count.
    pub fn m(&self) -> usize {
        rewritten_count(&self.table)
    }

    /// The count of the table as it is given.
    pub fn nodes(&self) -> usize {
        usize::from(self.table[5])
    }
}

pub fn case(name: &str, nodes: &Nodes, samples: Vec<u64>) -> Case {
    let table = nodes.table();
    Case {
        name: name.to_string(),
        inputs: vec![Input { table, samples }],
    }
}

/// Every case of the main table.
pub fn all() -> Vec<Case> {
    vec![
        p1(),
        clocked_implication(),
        random_case("random", Kind::Plain),
        random_case("random-clocked", Kind::Clocked),
        nested_repeats(),
        then_chain(),
        fused_chain(),
        implies_chain(),
        until_chain(),
        clocked_nexttime(),
        clocked_rise(),
        random_case("random-risen", Kind::Pairs),
        risen_and_fallen(),
        worst::REPEATS.case("worst-repeats".to_string(), 120, LONGEST),
        worst::CHAINED.case("chained-repeats".to_string(), 120, LONGEST),
        worst::THEN.case("worst-then".to_string(), 120, LONGEST),
        worst::FUSED.case("worst-fused".to_string(), 120, LONGEST),
    ]
}

/// P1: strong(a ##1 b) on its one sample, where the work outside the rows weighs most.
fn p1() -> Case {
    let mut t = Nodes::default();
    let a = t.signal(0);
    let b = t.signal(1);
    let first = t.letter(a);
    let second = t.letter(b);
    let both = t.then(first, second);
    t.strong(both);
    case("p1", &t, vec![1])
}

/// `@(c)(a ##1 b |-> nexttime strong(b))`, an assertion as a lab writes it, on a full record: c ticks on every other sample.
fn clocked_implication() -> Case {
    let mut t = Nodes::default();
    let a = t.signal(0);
    let b = t.signal(1);
    let c = t.signal(2);
    implied_next(&mut t, c, [a, b], b);
    case("clocked-implication", &t, over_and_over(&[7, 3, 6, 1]))
}

/// `@(c)(a ##1 b |-> nexttime strong(p))`, of booleans a, b and p.
fn implied_next(t: &mut Nodes, c: u8, [a, b]: [u8; 2], p: u8) {
    let first = t.letter(a);
    let second = t.letter(b);
    let left = t.then(first, second);
    let asked = t.letter(p);
    let held = t.strong(asked);
    let next = t.nexttime(held);
    let implied = t.implies(left, next);
    t.clocked(c, implied);
}

/// A full record of the same samples again and again.
pub fn over_and_over(samples: &[u64]) -> Vec<u64> {
    samples.iter().copied().cycle().take(LONGEST).collect()
}

/// The seeds that a random case is averaged over.
pub const SEEDS: [u64; 5] = [11, 12, 13, 14, 15];

/// Random tables of 100 to 120 rewritten nodes, on full records.
fn random_case(name: &str, kind: Kind) -> Case {
    let input = |seed| {
        let mut r = Random::new(seed);
        Input {
            table: random::table(&mut r, 100, 120, kind),
            samples: random::samples(&mut r, LONGEST),
        }
    };
    Case {
        name: name.to_string(),
        inputs: SEEDS.into_iter().map(input).collect(),
    }
}

/// A record in which signals 0 to 63 are set in every sample.
pub fn all_set() -> Vec<u64> {
    vec![u64::MAX; LONGEST]
}

/// Repetitions over a letter that every sample satisfies. From each start every later place is an end, so each repetition but the first has as many
/// ends to go on from as there can be, 2,016 for its 64 starts.
fn nested_repeats() -> Case {
    let mut t = Nodes::default();
    let a = t.signal(0);
    let mut top = t.letter(a);
    while t.len() < 119 {
        top = t.repeat(top);
    }
    t.strong(top);
    case("nested-repeats", &t, all_set())
}

/// `a[*1:$]`, which on `all_set` has every later place as an end, 2,016 for the 64 starts.
pub fn all_ends(t: &mut Nodes, a: u8) -> u8 {
    let letter = t.letter(a);
    t.repeat(letter)
}

/// A chain of ##1 whose first part keeps all its ends all the way up: it is followed by empty matches, where a letter would lose one end a step.
fn then_chain() -> Case {
    let mut t = Nodes::default();
    let a = t.signal(0);
    let mut top = all_ends(&mut t, a);
    while t.len() < 117 {
        let letter = t.letter(a);
        let none = t.empty(letter);
        top = t.then(top, none);
    }
    t.strong(top);
    case("then-chain", &t, all_set())
}

/// A chain of ##0 whose first part keeps all its ends all the way up: it is fused with a letter, which shares the last letter and takes no end away.
fn fused_chain() -> Case {
    let mut t = Nodes::default();
    let a = t.signal(0);
    let mut top = all_ends(&mut t, a);
    while t.len() < 118 {
        let letter = t.letter(a);
        top = t.fused(top, letter);
    }
    t.strong(top);
    case("fused-chain", &t, all_set())
}

/// As many `|->` as there can be, each over one letter: every start of every one has its last letters to hold against three sets, whatever they are. For
/// tested the letter's own set is enough.
fn implies_chain() -> Case {
    let mut t = Nodes::default();
    let a = t.signal(0);
    let letter = t.letter(a);
    let mut top = t.strong(letter);
    while t.len() < 118 {
        let letter = t.letter(a);
        top = t.implies(letter, top);
    }
    case("implies-chain", &t, all_set())
}

/// As many untils as there can be, each with strong(a) on the left and all that came before on the right. P holds at every sample and Q only at the last one, so
/// a run of P is as long as the record.
fn until_chain() -> Case {
    let mut t = Nodes::default();
    let a = t.signal(0);
    let b = t.signal(1);
    let letter = t.letter(b);
    let mut top = t.strong(letter);
    while t.len() < 117 {
        let letter = t.letter(a);
        let held = t.strong(letter);
        top = t.until(held, top);
    }
    let mut samples = vec![1; LONGEST];
    samples[LONGEST - 1] = 3;
    case("until-chain", &t, samples)
}

/// Seven nexttimes under a clock, 14 nodes each, over strong(a): c ticks on every other sample.
fn clocked_nexttime() -> Case {
    let mut t = Nodes::default();
    let a = t.signal(0);
    let c = t.signal(2);
    let letter = t.letter(a);
    let mut top = t.strong(letter);
    for _ in 0..7 {
        top = t.nexttime(top);
    }
    t.clocked(c, top);
    let samples = (0..LONGEST).map(|i| if i % 2 == 0 { 5 } else { 1 });
    case("clocked-nexttime", &t, samples.collect())
}

/// `@(c)(rose a ##1 b |-> nexttime strong(fell a))`, an assertion as a lab writes it, on a full record: c ticks on every other sample, and a rises at a tick, is
/// followed by b at the next and falls at the one after that, again and again.
fn clocked_rise() -> Case {
    let mut t = Nodes::default();
    let rose = t.risen(0);
    let b = t.signal(1);
    let c = t.signal(2);
    let fell = t.fallen(0);
    implied_next(&mut t, c, [rose, b], fell);
    case("clocked-rise", &t, over_and_over(&[5, 1, 7, 1, 4, 0, 4, 0]))
}

/// As many nodes of risen and fallen signals as there can be, where the rows of booleans weigh most.
fn risen_and_fallen() -> Case {
    let mut t = Nodes::default();
    for s in 0..59 {
        t.risen(s);
        t.fallen(s);
    }
    let letter = t.letter(0);
    t.strong(letter);
    let mut r = Random::new(31);
    case("risen-and-fallen", &t, random::samples(&mut r, LONGEST))
}

/// One mixed random table of about 60 nodes, on records of growing length.
pub fn growing_n() -> Vec<Case> {
    let mut r = Random::new(21);
    let table = random::table(&mut r, 58, 62, Kind::Plain);
    let samples = random::samples(&mut r, LONGEST);
    let input = |n: usize| Case {
        name: format!("n-{n}"),
        inputs: vec![Input {
            table: table.clone(),
            samples: samples[..n].to_vec(),
        }],
    };
    [0, 7, 15, 31, 47, 63].map(input).into()
}

/// Mixed random tables of growing size, on full records.
pub fn growing_m() -> Vec<Case> {
    let case = |m: usize| {
        let input = |seed| {
            let mut r = Random::new(seed);
            Input {
                table: random::table(&mut r, m, m, Kind::Plain),
                samples: random::samples(&mut r, LONGEST),
            }
        };
        Case {
            name: format!("m-{m}"),
            inputs: SEEDS.into_iter().map(input).collect(),
        }
    };
    [15, 30, 60, 90, 120].map(case).into()
}
