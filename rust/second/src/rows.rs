//! The rows that judge and match ends leave in the workspace.

use crate::meaning::Meaning;
use crate::node::{Node, Sort};
use crate::words::Tail;

/// Each rewritten node owns this many words.
pub const WORDS_PER_NODE: usize = 65;

/// The word of a sequence that tells its matches with ⊤ letters at the end.
const TOP_WORD: usize = 64;

/// All rows of a rewritten table, each word by the definition of its node.
pub fn rows(table: &[Node], samples: &[u64]) -> Vec<u64> {
    let mut meaning = Meaning::new(table, samples);
    let mut rows = vec![0; WORDS_PER_NODE * table.len()];
    for (index, row) in rows.chunks_exact_mut(WORDS_PER_NODE).enumerate() {
        match table[index].sort() {
            Sort::Boolean => boolean_row(&meaning, index, samples.len(), row),
            Sort::Sequence => sequence_row(&mut meaning, index, samples.len(), row),
            Sort::Property => property_row(&mut meaning, index, samples.len(), row),
        }
    }
    rows
}

/// Word 0 has bit i where letter i satisfies the boolean.
fn boolean_row(meaning: &Meaning, node: usize, n: usize, row: &mut [u64]) {
    for i in 0..n {
        row[0] |= bit(i, meaning.boolean(node, i));
    }
}

/// Word i has bit j where samples i to j-1 match; word 64 has bit i where the
/// samples from i on, followed by one or more ⊤, match.
fn sequence_row(meaning: &mut Meaning, node: usize, n: usize, row: &mut [u64]) {
    for i in 0..=n {
        for &end in meaning.ends(node, None, i, Tail::Nothing).iter() {
            row[i] |= bit(end, true);
        }
        let with_top = meaning.ends(node, None, i, Tail::Top);
        row[TOP_WORD] |= bit(i, with_top.iter().any(|&end| end > n));
    }
}

/// Words 0, 1, 2 hold neutral, weak and strong for each suffix 0 to n.
fn property_row(meaning: &mut Meaning, node: usize, n: usize, row: &mut [u64]) {
    let tails = [Tail::Nothing, Tail::Top, Tail::Bottom];
    for (word, tail) in tails.into_iter().enumerate() {
        for i in 0..=n {
            row[word] |= bit(i, meaning.satisfies(node, None, i, tail));
        }
    }
}

/// A word with the bit of a position set or not.
fn bit(position: usize, set: bool) -> u64 {
    u64::from(set) << position
}
