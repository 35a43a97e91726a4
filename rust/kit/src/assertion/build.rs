//! Building an assertion node by node.
use super::{Assertion, Node, Operator, Sort};
use std::collections::HashMap;

/// The nodes of a table, at most.
pub const MOST_NODES: usize = 120;

/// An assertion that is being built. Equal booleans become one node.
#[derive(Clone, Debug, Default)]
pub struct Builder {
    nodes: Vec<Node>,
    booleans: HashMap<Node, usize>,
}

impl Builder {
    /// Nothing built yet.
    pub fn new() -> Builder {
        Builder::default()
    }

    /// Adds a node over nodes that were added before and answers its index; none where there would
    /// be more than [`MOST_NODES`].
    pub fn add(&mut self, operator: Operator, x: usize, y: usize) -> Option<usize> {
        self.add_counted(operator, x, y, 0)
    }

    /// The same for a node that counts, with its fourth byte.
    pub fn add_counted(
        &mut self,
        operator: Operator,
        x: usize,
        y: usize,
        fourth: u8,
    ) -> Option<usize> {
        let (x, y) = (u8::try_from(x).ok()?, u8::try_from(y).ok()?);
        let node = Node {
            operator,
            x,
            y,
            fourth,
        };
        if let Some(index) = self.booleans.get(&node) {
            return Some(*index);
        }
        let index = self.nodes.len();
        if index >= MOST_NODES {
            return None;
        }
        self.nodes.push(node);
        if operator.sort() == Sort::Boolean {
            self.booleans.insert(node, index);
        }
        Some(index)
    }

    /// A node that was added.
    pub fn node(&self, index: usize) -> Option<Node> {
        self.nodes.get(index).copied()
    }

    /// The assertion, whose root is the node added last, with its booleans moved to the front.
    pub fn finish(self) -> Assertion {
        let boolean = |node: &&Node| node.operator.sort() == Sort::Boolean;
        let mut place = vec![0; self.nodes.len()];
        let (front, rest): (Vec<_>, Vec<_>) = (0u8..)
            .zip(&self.nodes)
            .partition(|(_, node)| boolean(node));
        for (new, (old, _)) in (0u8..).zip(front.iter().chain(&rest)) {
            if let Some(place) = place.get_mut(usize::from(*old)) {
                *place = new;
            }
        }
        let moved = |index: u8| place.get(usize::from(index)).copied().unwrap_or_default();
        let renumber = |node: &Node| match node.operator.operands() {
            [] => *node,
            [_] => Node {
                x: moved(node.x),
                ..*node
            },
            _ => Node {
                x: moved(node.x),
                y: moved(node.y),
                ..*node
            },
        };
        let order = front.iter().chain(&rest).map(|(_, node)| renumber(node));
        Assertion {
            nodes: order.collect(),
        }
    }
}
