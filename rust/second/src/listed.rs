//! Cases of the expander that are not left to chance.

mod hollow;
mod order;
mod tables;

use crate::answers::expand;
use crate::case::Case;
use crate::node::{is_derived, OPERATORS};
use crate::table::{table_bytes, MOST_NODES};
use tables::{derived, of_every_operator, padded, whole};

/// The bytes of the largest table.
const LARGEST: usize = 6 + 4 * MOST_NODES;

/// Every fourth byte of every operator, each derived operator alone, nested and
/// under clocks, the limits of 13 and 15, 9 by each operator, any order of the
/// nodes, and other versions.
pub fn listed() -> Vec<Case> {
    let mut cases = fourth_bytes();
    cases.extend(limits_of_the_count());
    cases.extend(limits_of_the_bytes());
    let nodes = [tables::nested(), tables::clocked(), order::orders()];
    cases.extend(nodes.concat().iter().map(|nodes| roomy(whole(3, nodes))));
    let tables = [hollow::hollow(), tables::deep(), tables::versions()];
    cases.extend(tables.concat().into_iter().map(roomy));
    cases
}

/// The case with all the room that its table needs and two bytes more, or with
/// a few where it is refused: what is lent is printed whole.
fn roomy(table: Vec<u8>) -> Case {
    let count = expand(&table, &mut [0; LARGEST]).count;
    let bytes = 8 + 4 * count;
    Case::Expand { table, bytes }
}

/// Every fourth byte of the operators that have one, so every m and n, and some
/// of all others, which have none.
fn fourth_bytes() -> Vec<Case> {
    let mut cases = Vec::new();
    for operator in OPERATORS {
        let bytes: Vec<u8> = match operator {
            23..=26 => (0..=255).collect(),
            _ if is_derived(operator) => vec![0, 1, 2, 4, 8, 16, 17, 32, 64, 128, 255],
            _ => vec![1, 16, 255],
        };
        for fourth in bytes {
            let mut table = table_bytes(3, &of_every_operator(operator));
            let last = table.len() - 1;
            table[last] = fourth;
            cases.push(roomy(table));
        }
    }
    cases
}

/// Each derived operator in a table whose expansion has 120 nodes, and 121.
fn limits_of_the_count() -> Vec<Case> {
    let tables = derived().flat_map(|operator| {
        let nodes = of_every_operator(operator);
        [MOST_NODES, MOST_NODES + 1].map(|count| whole(3, &padded(&nodes, count)))
    });
    tables.map(roomy).collect()
}

/// Each derived operator with one byte too few, with as many as it needs, and
/// with many more.
fn limits_of_the_bytes() -> Vec<Case> {
    let mut cases = Vec::new();
    for operator in derived() {
        let table = whole(3, &of_every_operator(operator));
        let needed = 6 + 4 * expand(&table, &mut [0; LARGEST]).count;
        for bytes in [0, needed - 1, needed, 500] {
            let table = table.clone();
            cases.push(Case::Expand { table, bytes });
        }
    }
    cases
}
