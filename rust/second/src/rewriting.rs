//! Rewriting clocks away, block by block.

use crate::node::{clocks, Node, Sort};

/// The rewritten table: first all booleans in their order, then one block per
/// other node in order. It may be longer than a table file can be.
pub fn rewritten(table: &[Node]) -> Vec<Node> {
    let clocks = clocks(table);
    let mut out = Vec::new();
    let mut stands = vec![0; table.len()];
    for (index, node) in table.iter().enumerate() {
        if node.sort() == Sort::Boolean {
            out.push(node.renumbered(|operand| stands[operand]));
            stands[index] = out.len() - 1;
        }
    }
    for (index, node) in table.iter().enumerate() {
        if node.sort() != Sort::Boolean {
            let node = node.renumbered(|operand| stands[operand]);
            let clock = clocks[index].map(|c| stands[c]);
            stands[index] = write_block(&mut out, node, clock);
        }
    }
    out
}

/// Writes the block of one node and gives the node that stands for it.
fn write_block(out: &mut Vec<Node>, node: Node, clock: Option<usize>) -> usize {
    let first = out.len();
    match (node, clock) {
        (Node::ClockSequence(_, operand) | Node::ClockProperty(_, operand), _) => return operand,
        (Node::Letter(b), Some(c)) => out.extend(letter_block(first, b, c)),
        (Node::Nexttime(p), Some(c)) => out.extend(nexttime_block(first, p, c)),
        (Node::Until(p, q), Some(c)) => out.extend(until_block(first, p, q, c)),
        _ => out.push(node),
    }
    out.len() - 1
}

/// A letter b under c: not c any number of times, then c and b.
fn letter_block(first: usize, b: usize, c: usize) -> [Node; 9] {
    let nth = |place: usize| first + place - 1;
    [
        Node::Not(c),
        Node::And(c, b),
        Node::Letter(nth(1)),
        Node::Empty(nth(3)),
        Node::Letter(nth(1)),
        Node::Repeat(nth(5)),
        Node::Either(nth(4), nth(6)),
        Node::Letter(nth(2)),
        Node::Then(nth(7), nth(8)),
    ]
}

/// nexttime P under c: to the first tick, one on, to the next tick, P there.
fn nexttime_block(first: usize, p: usize, c: usize) -> [Node; 14] {
    let nth = |place: usize| first + place - 1;
    [
        Node::Not(c),
        Node::Letter(nth(1)),
        Node::Strong(nth(2)),
        Node::Letter(c),
        Node::Strong(nth(4)),
        Node::AndProperty(nth(5), p),
        Node::Until(nth(3), nth(6)),
        Node::Nexttime(nth(7)),
        Node::Letter(c),
        Node::Strong(nth(9)),
        Node::AndProperty(nth(10), nth(8)),
        Node::Letter(nth(1)),
        Node::Strong(nth(12)),
        Node::Until(nth(13), nth(11)),
    ]
}

/// P until Q under c: P where c ticks, until Q where c ticks.
fn until_block(first: usize, p: usize, q: usize, c: usize) -> [Node; 9] {
    let nth = |place: usize| first + place - 1;
    [
        Node::Letter(c),
        Node::Strong(nth(1)),
        Node::NotProperty(p),
        Node::AndProperty(nth(2), nth(3)),
        Node::NotProperty(nth(4)),
        Node::Letter(c),
        Node::Strong(nth(6)),
        Node::AndProperty(nth(7), q),
        Node::Until(nth(5), nth(8)),
    ]
}
