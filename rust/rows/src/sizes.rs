//! How many nodes each node is expanded to, with all below it and without booleans.
use crate::check::MOST;
use crate::operators::*;

/// The nodes of each node's expansion; more than a table may have are one more. A boolean has none of its own: it is counted apart.
pub fn sizes(nodes: &[[u8; 4]]) -> [usize; 256] {
    let mut sizes = [0; 256];
    for (k, &[op, x, y, fourth]) in nodes.iter().enumerate() {
        let operator = OPERATORS[usize::from(op)];
        let x = if operator.x == NONE {
            0
        } else {
            sizes[usize::from(x)]
        };
        let y = if operator.y == NONE {
            0
        } else {
            sizes[usize::from(y)]
        };
        sizes[k] = match operator.own {
            BOOLEAN => 0,
            _ => size(op, fourth, x, y).min(MOST + 1),
        };
    }
    sizes
}

/// The nodes of one block, from those of its operands.
fn size(op: u8, fourth: u8, x: usize, y: usize) -> usize {
    let (m, n) = (usize::from(fourth & 15), usize::from(fourth >> 4));
    match op {
        TIMES => times(x, m, n),
        DELAY => delay(x, y, m, n),
        GOTO => times(GROUP, m, m),
        NONCONSECUTIVE => times(GROUP, m, m) + WAITS + 1,
        IMPLIES_NEXT | FOLLOWED => x + y + 3,
        FOLLOWED_NEXT => x + y + 5,
        ALWAYS | STRONG_NEXTTIME => x + 3,
        EVENTUALLY => x + 5,
        STRONG_UNTIL => x + 2 * y + 7,
        _ => x + y + 1,
    }
}

/// `!b[*0:$]`, and the group that it makes with `##1 b`.
const WAITS: usize = 5;
const GROUP: usize = WAITS + 2;

/// `[*m:n]`: for each k from m to n k + 1 copies, `[*0]` and k times `##1`, and an or between two.
fn times(x: usize, m: usize, n: usize) -> usize {
    let copies = (m + 1..=n + 1).sum::<usize>();
    copies * (x + 1) + n - m
}

/// `##[m:n]`: from 0 on both sides stand twice.
fn delay(x: usize, y: usize, m: usize, n: usize) -> usize {
    let at_once = x + y + 1;
    match (m, n) {
        (_, 0) => at_once,
        (0, _) => at_once + delay(x, y, 1, n) + 1,
        _ => x + y + times(1, m - 1, n - 1) + 2,
    }
}

/// The booleans of the new table: the table's own, and one for each block that makes one.
pub fn booleans(nodes: &[[u8; 4]]) -> usize {
    let of_node = |&&[op, _, _, fourth]: &&[u8; 4]| {
        OPERATORS[usize::from(op)].own == BOOLEAN || makes_boolean(op, fourth)
    };
    nodes.iter().filter(of_node).count()
}

/// Whether a node's block makes a boolean.
pub fn makes_boolean(op: u8, fourth: u8) -> bool {
    match op {
        DELAY => fourth != 0,
        GOTO | NONCONSECUTIVE | IMPLIES_NEXT | FOLLOWED_NEXT => true,
        ALWAYS | EVENTUALLY | STRONG_UNTIL => true,
        _ => false,
    }
}
