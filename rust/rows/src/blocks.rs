//! The blocks that stand for nodes under a clock. `at` is the number of a block's first node; c, b, p and q are new numbers.
use crate::operators::*;

/// Letter b under c.
pub fn letter(at: u8, c: u8, b: u8) -> [[u8; 4]; 9] {
    [
        [BOOLEAN_NOT, c, 0, 0],
        [BOOLEAN_AND, c, b, 0],
        [LETTER, at, 0, 0],
        [EMPTY, at + 2, 0, 0],
        [LETTER, at, 0, 0],
        [REPEAT, at + 4, 0, 0],
        [EITHER, at + 3, at + 5, 0],
        [LETTER, at + 1, 0, 0],
        [THEN, at + 6, at + 7, 0],
    ]
}

/// nexttime p under c.
pub fn nexttime(at: u8, c: u8, p: u8) -> [[u8; 4]; 14] {
    [
        [BOOLEAN_NOT, c, 0, 0],
        [LETTER, at, 0, 0],
        [STRONG, at + 1, 0, 0],
        [LETTER, c, 0, 0],
        [STRONG, at + 3, 0, 0],
        [AND, at + 4, p, 0],
        [UNTIL, at + 2, at + 5, 0],
        [NEXTTIME, at + 6, 0, 0],
        [LETTER, c, 0, 0],
        [STRONG, at + 8, 0, 0],
        [AND, at + 9, at + 7, 0],
        [LETTER, at, 0, 0],
        [STRONG, at + 11, 0, 0],
        [UNTIL, at + 12, at + 10, 0],
    ]
}

/// p until q under c.
pub fn until(at: u8, c: u8, p: u8, q: u8) -> [[u8; 4]; 9] {
    [
        [LETTER, c, 0, 0],
        [STRONG, at, 0, 0],
        [NOT, p, 0, 0],
        [AND, at + 1, at + 2, 0],
        [NOT, at + 3, 0, 0],
        [LETTER, c, 0, 0],
        [STRONG, at + 5, 0, 0],
        [AND, at + 6, q, 0],
        [UNTIL, at + 4, at + 7, 0],
    ]
}
