//! The tables of the listed cases.

use crate::count;
use crate::node::{is_derived, places, Node, Place, Sort, OPERATORS};
use crate::table::table_bytes;

/// A table of a version.
pub fn whole(version: u16, nodes: &[Node]) -> Vec<u8> {
    table_bytes(version, nodes)
}

/// Signals 0 and 1, operands of them, and a node with this operator as the root.
pub fn of_every_operator(operator: u8) -> Vec<Node> {
    over(vec![Node::Signal(0), Node::Signal(1)], operator, &[0, 1])
}

/// The same over booleans that are there; what counts, counts from 1 to 2.
pub fn over(mut nodes: Vec<Node>, operator: u8, booleans: &[usize]) -> Vec<Node> {
    push_over(&mut nodes, operator, booleans);
    nodes
}

/// Adds a node with this operator over operands that are made for it, each over
/// one of the booleans, and gives its number.
fn push_over(nodes: &mut Vec<Node>, operator: u8, booleans: &[usize]) -> usize {
    let places = places(operator).unwrap_or([Place::Unused; 3]);
    let mut held = [0; 3];
    for ((place, held), &b) in places.iter().zip(&mut held).zip(booleans) {
        *held = match place {
            Place::Operand(Sort::Boolean) => b,
            Place::Operand(sort) => operand(nodes, *sort, b),
            _ => 0,
        };
    }
    held[2] = fourth(operator, 1, 2);
    push(nodes, operator, held)
}

/// The fourth byte for m and n, or for n alone.
fn fourth(operator: u8, m: usize, n: usize) -> usize {
    match operator {
        23 | 24 => m + 16 * n,
        25 | 26 => n,
        _ => 0,
    }
}

/// A letter over a boolean, or strong of one.
fn operand(nodes: &mut Vec<Node>, sort: Sort, b: usize) -> usize {
    nodes.push(Node::Letter(b));
    if sort == Sort::Property {
        nodes.push(Node::Strong(nodes.len() - 1));
    }
    nodes.len() - 1
}

/// Adds the node with this operator, if there is one.
fn push(nodes: &mut Vec<Node>, operator: u8, held: [usize; 3]) -> usize {
    nodes.extend(Node::new(operator, held));
    nodes.len() - 1
}

/// The table with unused booleans in front, so that it comes to so many nodes.
pub fn padded(nodes: &[Node], count: usize) -> Vec<Node> {
    let more = count.saturating_sub(count::expanded(nodes));
    let unused = (0..more).map(|signal| Node::Signal(signal % 64));
    let moved = nodes.iter().map(|node| node.renumbered(|old| old + more));
    unused.chain(moved).collect()
}

/// The derived operators.
pub fn derived() -> impl Iterator<Item = u8> {
    OPERATORS
        .into_iter()
        .filter(|&operator| is_derived(operator))
}

/// Each derived operator as each operand of each other that takes its sort.
pub fn nested() -> Vec<Vec<Node>> {
    let mut tables = Vec::new();
    for outer in derived() {
        let places = places(outer).unwrap_or([Place::Unused; 3]);
        for inner in derived() {
            let takes = |&at: &usize| places[at] == Place::Operand(sort_of(inner));
            let taken = (0..2).filter(takes);
            tables.extend(taken.map(|place| nested_table(outer, inner, place)));
        }
    }
    tables
}

/// The sort of the nodes with an operator.
fn sort_of(operator: u8) -> Sort {
    match operator {
        0..=15 => Sort::Boolean,
        16..=31 => Sort::Sequence,
        _ => Sort::Property,
    }
}

/// The outer operator with the inner one at a place, and what else it needs.
fn nested_table(outer: u8, inner: u8, place: usize) -> Vec<Node> {
    let mut nodes = vec![Node::Signal(0), Node::Signal(1), Node::Signal(2)];
    let places = places(outer).unwrap_or([Place::Unused; 3]);
    let mut held = [0; 3];
    for at in 0..2 {
        held[at] = match places[at] {
            Place::Operand(_) if at == place => push_over(&mut nodes, inner, &[0, 1]),
            Place::Operand(sort) => operand(&mut nodes, sort, 2),
            _ => 0,
        };
    }
    held[2] = fourth(outer, 0, 1);
    push(&mut nodes, outer, held);
    nodes
}

/// Each derived operator under a clock, over one, and with its boolean, where it
/// has one, as the clock.
pub fn clocked() -> Vec<Vec<Node>> {
    let mut tables = Vec::new();
    for operator in derived() {
        for clock in [0, 2] {
            let mut nodes = vec![Node::Signal(0), Node::Signal(1), Node::Risen(2)];
            let root = push_over(&mut nodes, operator, &[0, 1]);
            nodes.push(clock_node(sort_of(operator), clock, root));
            tables.push(nodes);
        }
        let below = of_every_operator(operator);
        let first = below[below.len() - 1].operands().next().unwrap_or(0);
        if below[first].sort() != Sort::Boolean {
            let clock = clock_node(below[first].sort(), 1, first);
            tables.push(crate::damage::with_nodes_above(&below, first, &[clock]));
        }
    }
    tables
}

/// A clock node over a sequence or a property.
fn clock_node(sort: Sort, clock: usize, operand: usize) -> Node {
    match sort {
        Sort::Sequence => Node::ClockSequence(clock, operand),
        _ => Node::ClockProperty(clock, operand),
    }
}

/// Repeats nested so deep that only counting with a limit ends, over a letter,
/// and below strong over what is hollow: 9 comes before 13.
pub fn deep() -> Vec<Vec<u8>> {
    let mut tables = Vec::new();
    for fourth in [0x00, 0x11, 0xff] {
        for depth in [1, 2, 11, 117] {
            let mut nodes = vec![Node::Signal(0), Node::Letter(0)];
            for _ in 0..depth {
                let below = nodes.len() - 1;
                push(&mut nodes, 23, [below, 0, fourth]);
            }
            tables.push(whole(3, &nodes));
            nodes.push(Node::Strong(nodes.len() - 1));
            tables.push(whole(3, &nodes));
        }
    }
    tables
}

/// A table with no derived node, in an order that is not the expander's: as one
/// of version 1 or 2 it is copied, of version 3 written anew, of another refused.
pub fn versions() -> Vec<Vec<u8>> {
    let nodes = [
        Node::Signal(0),
        Node::Letter(0),
        Node::Signal(5),
        Node::Letter(2),
        Node::Strong(3),
        Node::Constant(1),
        Node::Implies(1, 4),
        Node::ClockProperty(5, 6),
    ];
    let versions = [0, 1, 2, 3, 4, 255, 256, 257, 258, 259, 512, 768, 65535];
    versions.map(|version| whole(version, &nodes)).to_vec()
}
