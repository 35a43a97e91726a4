//! How many nodes a table comes to when it is expanded, and when it is rewritten.

use crate::expansion;
use crate::node::Node;
use crate::rewriting;

/// Larger expansions are not told apart.
const MOST: usize = 2000;

/// The nodes of the expansion, or a number above all that are told apart. Of a
/// table with no derived node they are its own.
pub fn expanded(nodes: &[Node]) -> usize {
    expansion::expanded(nodes, MOST).map_or(MOST + 1, |expanded| expanded.len())
}

/// The nodes of the rewriting, which expands first.
pub fn rewritten(nodes: &[Node]) -> usize {
    let is_derived = |node: &Node| matches!(node, Node::Derived(_));
    if !nodes.iter().any(is_derived) {
        return rewriting::rewritten(nodes).len();
    }
    let expanded = expansion::expanded(nodes, MOST);
    expanded.map_or(MOST + 1, |nodes| rewriting::rewritten(&nodes).len())
}
