//! Refusal 9 by each operator, and what comes close to it.

use super::tables::whole;
use crate::derived::{Bounds, Derived};
use crate::node::Node;
use crate::shrink::reached;

/// Each operator that asks for a match, over each sequence that gives few.
pub fn hollow() -> Vec<Vec<u8>> {
    let mut tables = Vec::new();
    for asking in ASKING {
        for few in FEW {
            let mut nodes = vec![Node::Signal(0), Node::Letter(0), Node::Empty(1)];
            nodes.extend([Node::Letter(0), Node::Letter(0), Node::Strong(4)]);
            let few = few(&mut nodes);
            nodes.push(asking(few));
            tables.push(whole(3, &reached(&nodes)));
        }
    }
    tables
}

/// Sequences over `a[*0]`, node 2, and a, node 3: what they match is no letters,
/// nothing at all, or some.
const FEW: [fn(&mut Vec<Node>) -> usize; 9] = [
    |_| 2,
    |nodes| times(nodes, 3, Bounds { m: 0, n: 0 }),
    |nodes| times(nodes, 2, Bounds { m: 3, n: 4 }),
    |nodes| times(nodes, 3, Bounds { m: 0, n: 1 }),
    |nodes| delay(nodes, Bounds { m: 0, n: 0 }),
    |nodes| delay(nodes, Bounds { m: 1, n: 1 }),
    |nodes| delay(nodes, Bounds { m: 0, n: 1 }),
    |nodes| pushed(nodes, Derived::Goto(0, 0)),
    |nodes| pushed(nodes, Derived::Nonconsecutive(0, 0)),
];

/// What asks for a match: the base's three, and what expands to them. Node 5 is
/// strong(a).
const ASKING: [fn(usize) -> Node; 6] = [
    Node::Strong,
    Node::Weak,
    |r| Node::Implies(r, 5),
    |r| Node::Derived(Derived::ImpliesNext(r, 5)),
    |r| Node::Derived(Derived::Followed(r, 5)),
    |r| Node::Derived(Derived::FollowedNext(r, 5)),
];

/// `R[*m:n]`.
fn times(nodes: &mut Vec<Node>, r: usize, bounds: Bounds) -> usize {
    pushed(nodes, Derived::Times(r, bounds))
}

/// `a[*0] ##[m:n] a`.
fn delay(nodes: &mut Vec<Node>, bounds: Bounds) -> usize {
    pushed(nodes, Derived::Delay(2, 3, bounds))
}

/// Adds a derived node and gives its number.
fn pushed(nodes: &mut Vec<Node>, derived: Derived) -> usize {
    nodes.push(Node::Derived(derived));
    nodes.len() - 1
}
