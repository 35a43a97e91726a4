//! A table with a clock, and what it is rewritten to.
use crate::tables::{node, C};

/// @(c) strong(b) of a boolean b.
pub fn clocked(b: [u8; 4]) -> [[u8; 4]; 5] {
    [b, C, node(16, 0, 0), node(32, 2, 0), node(40, 1, 3)]
}

/// What that is rewritten to.
pub fn unclocked(b: [u8; 4]) -> [[u8; 4]; 12] {
    [
        b,
        C,
        node(2, 1, 0),
        node(3, 1, 0),
        node(16, 2, 0),
        node(20, 4, 0),
        node(16, 2, 0),
        node(21, 6, 0),
        node(19, 5, 7),
        node(16, 3, 0),
        node(17, 8, 9),
        node(32, 10, 0),
    ]
}
