//! The rows of a table without clocks, each from the rows below it.
use crate::below::{Below, Starts};
use crate::booleans;
use crate::operators::*;
use crate::properties;
use crate::sequences;
use crate::signals::Signals;
use crate::Row;

/// Fills the row of every node, and puts the starts of every sequence beside them.
pub fn fill(nodes: &[[u8; 4]], samples: &[u64], rows: &mut [Row], starts: &mut Starts) {
    let n = samples.len();
    let mut signals = Signals::of(samples);
    for (k, &[op, x, y, _]) in nodes.iter().enumerate() {
        let (rows, own) = rows.split_at_mut(k);
        let own = &mut own[0];
        match op {
            CONSTANT..=FALLEN => put(own, &[booleans::word(rows, &mut signals, op, x, y)]),
            LETTER..=REPEAT => {
                let below = Below {
                    nodes,
                    rows,
                    starts,
                };
                starts[k] = sequences::put(own, &below, n, op, x, y);
            }
            _ => {
                let below = Below {
                    nodes,
                    rows,
                    starts,
                };
                let p = properties::words(&below, n, op, x, y);
                put(own, &[p.neutral, p.weak, p.strong]);
            }
        }
    }
}

/// A row of a few words, the others 0.
fn put<const N: usize>(own: &mut Row, words: &[u64; N]) {
    own[..N].copy_from_slice(words);
    own[N..].fill(0);
}
