//! Letters, tails and words, and when a letter satisfies a boolean.

use crate::node::Node;
use std::collections::HashMap;

/// A sample with the one before it, which tells what has risen and fallen.
#[derive(Clone, Copy, Debug, PartialEq, Eq, Hash)]
pub struct Pair {
    pub before: u64,
    pub sample: u64,
}

/// The pairs of a whole record: the sample before the first is all zero.
///
/// They are made once, before any suffix is taken, so that a suffix begins
/// with a pair that still knows the sample before it.
pub fn pairs(record: &[u64]) -> Vec<Pair> {
    let mut before = 0;
    let mut pairs = Vec::with_capacity(record.len());
    for &sample in record {
        pairs.push(Pair { before, sample });
        before = sample;
    }
    pairs
}

/// One letter of a word.
#[derive(Clone, Copy, Debug, PartialEq, Eq)]
pub enum Letter {
    Pair(Pair),
    Top,
    Bottom,
}

/// What follows the samples of a word.
#[derive(Clone, Copy, Debug, PartialEq, Eq, Hash)]
pub enum Tail {
    Nothing,
    Top,
    Bottom,
}

impl Tail {
    /// The tail of the bar of the word: ⊤ and ⊥ swapped.
    pub fn bar(self) -> Tail {
        match self {
            Tail::Nothing => Tail::Nothing,
            Tail::Top => Tail::Bottom,
            Tail::Bottom => Tail::Top,
        }
    }

    /// The letter the tail repeats for ever, if there is a tail.
    pub fn letter(self) -> Option<Letter> {
        match self {
            Tail::Nothing => None,
            Tail::Top => Some(Letter::Top),
            Tail::Bottom => Some(Letter::Bottom),
        }
    }
}

/// The pairs and the first `extra` letters of the tail.
pub fn whole(pairs: &[Pair], tail: Tail, extra: usize) -> Vec<Letter> {
    let mut letters: Vec<Letter> = pairs.iter().map(|&pair| Letter::Pair(pair)).collect();
    if let Some(letter) = tail.letter() {
        letters.extend(vec![letter; extra]);
    }
    letters
}

/// The first `end` letters of a word, then `extra` letters ⊤.
pub fn cut(pairs: &[Pair], tail: Tail, end: usize, extra: usize) -> Vec<Letter> {
    let mut letters = whole(pairs, tail, end);
    letters.truncate(end);
    letters.extend(vec![Letter::Top; extra]);
    letters
}

/// The values of all booleans of a table on the pairs of a record.
///
/// They are kept, since a boolean may be shared many times.
pub struct Booleans {
    values: HashMap<Pair, Vec<bool>>,
}

impl Booleans {
    /// Works out every boolean of the table on every pair.
    pub fn new(table: &[Node], pairs: &[Pair]) -> Booleans {
        let mut values = HashMap::new();
        for &pair in pairs {
            values.entry(pair).or_insert_with(|| values_on(table, pair));
        }
        Booleans { values }
    }

    /// Whether a letter satisfies b: ⊤ satisfies every boolean, ⊥ none.
    pub fn satisfies(&self, letter: Letter, b: usize) -> bool {
        match letter {
            Letter::Pair(pair) => self.value(pair, b),
            Letter::Top => true,
            Letter::Bottom => false,
        }
    }

    /// Whether a letter satisfies not c: again ⊤ does and ⊥ does not.
    pub fn satisfies_not(&self, letter: Letter, c: usize) -> bool {
        match letter {
            Letter::Pair(pair) => !self.value(pair, c),
            Letter::Top => true,
            Letter::Bottom => false,
        }
    }

    /// The usual value of b on a pair of the record.
    fn value(&self, pair: Pair, b: usize) -> bool {
        self.values.get(&pair).is_some_and(|values| values[b])
    }
}

/// The usual value of each boolean on one pair; other nodes get false.
fn values_on(table: &[Node], pair: Pair) -> Vec<bool> {
    let now = |s: usize| pair.sample >> s & 1 == 1;
    let before = |s: usize| pair.before >> s & 1 == 1;
    let mut values: Vec<bool> = Vec::with_capacity(table.len());
    for node in table {
        let value = match *node {
            Node::Constant(x) => x == 1,
            Node::Signal(s) => now(s),
            Node::Risen(s) => now(s) && !before(s),
            Node::Fallen(s) => before(s) && !now(s),
            Node::Not(x) => !values[x],
            Node::And(x, y) => values[x] && values[y],
            Node::Or(x, y) => values[x] || values[y],
            _ => false,
        };
        values.push(value);
    }
    values
}
