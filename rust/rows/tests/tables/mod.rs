//! Tables written out node by node, and their levels. a, b, c are signals 0, 1, 2.
use rows::{judge, Verdict};

pub const A: [u8; 4] = [1, 0, 0, 0];
pub const B: [u8; 4] = [1, 1, 0, 0];
pub const C: [u8; 4] = [1, 2, 0, 0];

/// A table of a version.
pub fn table(version: u16, nodes: &[[u8; 4]]) -> Vec<u8> {
    let mut bytes = b"SVT".to_vec();
    bytes.extend(version.to_le_bytes());
    bytes.push(nodes.len() as u8);
    bytes.extend(nodes.concat());
    bytes
}

/// A node of operator, x and y.
pub fn node(op: u8, x: u8, y: u8) -> [u8; 4] {
    [op, x, y, 0]
}

/// The level of a table of a version, which is accepted.
pub fn level(version: u16, nodes: &[[u8; 4]], samples: &[u64]) -> u8 {
    let judgement = judge(&table(version, nodes), samples, &mut [0; 7800]);
    assert_eq!(judgement.verdict, Verdict::default(), "{nodes:?}");
    judgement.level
}
