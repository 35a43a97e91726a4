//! The examples of docs/FORMAT.md, the small cases of the open points, the plain
//! judge, rising and falling signals, what is tested, expanding, refusals, and
//! checks over many random cases.

mod blocks;
mod counts;
mod coverage;
mod examples;
mod expanding;
mod expansions;
mod plain;
mod random_cases;
mod refusals;
mod rising;
mod tested;
mod tools;
mod versions;

use crate::answers::in_base_operators;
use crate::node::Node;
use crate::table::checked;
use crate::versions::NEWEST;
use crate::{judge, level, plain_judge, Verdict};

/// The nodes of a table of any version that is accepted, expanded.
fn base_nodes(table: &[u8]) -> Option<Vec<Node>> {
    let table = checked(table, NEWEST).and_then(in_base_operators).ok()?;
    Some(table.nodes)
}

/// A table of version 1 from operators with x and y.
fn table(nodes: &[(u8, u8, u8)]) -> Vec<u8> {
    table_of(1, nodes)
}

/// A table of version 2, which may have operators 5 and 6.
fn table_2(nodes: &[(u8, u8, u8)]) -> Vec<u8> {
    table_of(2, nodes)
}

/// A table of version 3 from whole nodes, each with its fourth byte.
fn table_3(nodes: &[[u8; 4]]) -> Vec<u8> {
    let mut bytes = vec![0x53, 0x56, 0x54, 3, 0, nodes.len() as u8];
    bytes.extend(nodes.as_flattened());
    bytes
}

/// A table of a version below 256.
fn table_of(version: u8, nodes: &[(u8, u8, u8)]) -> Vec<u8> {
    let mut bytes = vec![0x53, 0x56, 0x54, version, 0, nodes.len() as u8];
    for &(operator, x, y) in nodes {
        bytes.extend([operator, x, y, 0]);
    }
    bytes
}

/// Signals a, b and c as nodes 0, 1 and 2, then the nodes given.
fn abc(nodes: &[(u8, u8, u8)]) -> Vec<u8> {
    let mut all = vec![(1, 0, 0), (1, 1, 0), (1, 2, 0)];
    all.extend(nodes);
    table(&all)
}

/// The nodes of @(c) strong(a), with these as a and c.
fn clocked_strong(a: (u8, u8, u8), c: (u8, u8, u8)) -> [(u8, u8, u8); 5] {
    [a, c, (16, 0, 0), (32, 2, 0), (40, 1, 3)]
}

/// Their rewriting, by docs/FORMAT.md (Rewriting clocks away).
fn clocked_strong_rewritten(a: (u8, u8, u8), c: (u8, u8, u8)) -> [(u8, u8, u8); 12] {
    [
        a,
        c,
        (2, 1, 0),
        (3, 1, 0),
        (16, 2, 0),
        (20, 4, 0),
        (16, 2, 0),
        (21, 6, 0),
        (19, 5, 7),
        (16, 3, 0),
        (17, 8, 9),
        (32, 10, 0),
    ]
}

/// Asserts the level of a table on samples, judged in all three ways.
fn has_level(table: &[u8], samples: &[u64], expected: u8) {
    let mut workspace = vec![0; 7800];
    let judged = judge(table, samples, &mut workspace);
    assert_eq!(judged.verdict, Verdict::ACCEPTED);
    assert_eq!(judged.level, expected, "{table:?} on {samples:?}");
    assert_eq!(level(table, samples), judged);
    assert_eq!(plain_judge(table, samples), judged);
}
