//! Refusal 9 needs two flags a sequence: whether it matches no letter, and whether it matches some k letters ⊤, k at least 1. No clock changes them.
use crate::operators::*;

/// The sequence has an empty match.
const NO_LETTER: u8 = 1;

/// The sequence matches some letters ⊤.
const LETTERS: u8 = 2;

/// The flags of a node from those of its operands, and for a derived one its fourth byte. Nodes that are no sequences have none.
pub fn flags(op: u8, fourth: u8, x: u8, y: u8) -> u8 {
    let (m, n) = (fourth & 15, fourth >> 4);
    match op {
        TIMES => times(x, m, n),
        DELAY => delay(x, y, m, n),
        GOTO => times(LETTERS, m, m),
        NONCONSECUTIVE => times(LETTERS, m, m) | LETTERS,
        _ => base_flags(op, x, y),
    }
}

/// The same of a node of the base.
pub const fn base_flags(op: u8, x: u8, y: u8) -> u8 {
    match op {
        LETTER => LETTERS,
        THEN => then(x, y),
        FUSED => x & y & LETTERS,
        EITHER => x | y,
        EMPTY => NO_LETTER,
        REPEAT => x,
        SEQUENCE_CLOCK => y,
        _ => 0,
    }
}

/// `##1`: an operand hands its letters on where the other has any match at all.
const fn then(x: u8, y: u8) -> u8 {
    if x == 0 || y == 0 {
        return 0;
    }
    (x & y & NO_LETTER) | ((x | y) & LETTERS)
}

/// `[*m:n]`.
fn times(x: u8, m: u8, n: u8) -> u8 {
    let none = if m == 0 { NO_LETTER } else { x & NO_LETTER };
    none | if n == 0 { 0 } else { x & LETTERS }
}

/// `##[m:n]`: from 1 on the two with m - 1 to n - 1 letters between them.
fn delay(x: u8, y: u8, m: u8, n: u8) -> u8 {
    let at_once = if m == 0 { x & y & LETTERS } else { 0 };
    if n == 0 {
        return at_once;
    }
    at_once | then(then(x, times(LETTERS, m.max(1) - 1, n - 1)), y)
}

/// The flags that the node asks of its sequence x, if it is of the base or asks the same: a match of some letters ⊤.
pub const fn asked(op: u8) -> u8 {
    match op {
        STRONG | WEAK | IMPLIES | FOLLOWED => LETTERS,
        _ => 0,
    }
}

/// Whether the node, expanded, asks for a match of its sequence x, which has none of any letter ⊤; `##1 1` gives it one letter more.
pub fn hollow(op: u8, x: u8) -> bool {
    match op {
        IMPLIES_NEXT | FOLLOWED_NEXT => x == 0,
        _ => asked(op) & !x != 0,
    }
}
