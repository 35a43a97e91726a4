//! Tables of version 1 that several tests ask about.
use crate::files;

/// A table of version 1 with these nodes: operator, x, y.
pub fn table(nodes: &[[u8; 3]]) -> Vec<u8> {
    files::table(1, nodes)
}

/// One letter a, and operators over it.
pub fn over_a(operators: &[[u8; 3]]) -> Vec<u8> {
    table(&[&[[1, 0, 0], [16, 0, 0]], operators].concat())
}

/// strong(a), accepted by everything but match ends.
pub fn strong_a() -> Vec<u8> {
    over_a(&[[32, 1, 0]])
}

/// a[*1:$], accepted by everything but the judges.
pub fn repeated_a() -> Vec<u8> {
    over_a(&[[21, 1, 0]])
}

/// @(a) over this many letters a joined by `##1`: each letter is rewritten to 9 nodes.
pub fn clocked_letters(count: u8) -> Vec<u8> {
    let mut nodes = vec![[1, 0, 0], [16, 0, 0]];
    for last in (1..).step_by(2).take(usize::from(count) - 1) {
        nodes.extend([[16, 0, 0], [17, last, last + 1]]);
    }
    let last = nodes.len() as u8 - 1;
    nodes.extend([[32, last, 0], [40, 0, last + 1]]);
    table(&nodes)
}
