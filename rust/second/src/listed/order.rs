//! Tables whose nodes stand in another order than the expander's.

use super::tables::{derived, of_every_operator, over};
use crate::node::Node;

/// Each derived operator with its operands the other way round in the table, with
/// unused booleans between all nodes, and with one boolean for all.
pub fn orders() -> Vec<Vec<Node>> {
    let orders = derived().map(|operator| {
        let nodes = of_every_operator(operator);
        let shared = over(vec![Node::Signal(0)], operator, &[0, 0]);
        [mirrored(&nodes), spread(&nodes), shared]
    });
    orders.collect::<Vec<_>>().concat()
}

/// The nodes in an order that has later operands first and booleans late.
fn mirrored(nodes: &[Node]) -> Vec<Node> {
    let mut numbers = vec![None; nodes.len()];
    let mut out = Vec::new();
    place(nodes, nodes.len() - 1, &mut numbers, &mut out);
    out
}

/// Places a node after its operands, unless it stands there already.
fn place(nodes: &[Node], index: usize, numbers: &mut [Option<usize>], out: &mut Vec<Node>) {
    if numbers[index].is_some() {
        return;
    }
    let operands: Vec<usize> = nodes[index].operands().collect();
    for &operand in operands.iter().rev() {
        place(nodes, operand, numbers, out);
    }
    numbers[index] = Some(out.len());
    out.push(nodes[index].renumbered(|old| numbers[old].unwrap_or(0)));
}

/// The nodes with an unused boolean before each.
fn spread(nodes: &[Node]) -> Vec<Node> {
    let pairs = nodes.iter().enumerate().map(|(index, node)| {
        let moved = node.renumbered(|old| 2 * old + 1);
        [Node::Fallen(index), moved]
    });
    pairs.collect::<Vec<_>>().concat()
}
