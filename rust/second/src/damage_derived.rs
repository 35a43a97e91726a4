//! Damaging tables of version 3 where a derived node stands.

use crate::damage::{set_version, with_nodes_above};
use crate::derived::{Bounds, Derived};
use crate::node::{is_derived, Node};
use crate::random::Random;
use crate::table::{readable, table_bytes, Table};

/// What the version of a table with derived nodes may become: none of these
/// knows them, and 259 and 768 have a byte 3.
const OTHER_VERSIONS: [u16; 5] = [1, 2, 4, 259, 768];

/// Damages a derived node, if the table has one, or what it stands on.
pub fn damage_derived(random: &mut Random, bytes: &mut Vec<u8>) {
    match random.weighted(&[30, 10, 10, 15, 35]) {
        0 => spoil_fourth(random, bytes),
        1 if bytes.len() >= 6 => set_version(bytes, random.pick(&OTHER_VERSIONS)),
        1 | 2 => swap_operands(random, bytes),
        3 => count_to_none(random, bytes),
        _ => match_nothing(random, bytes),
    }
}

/// Where the derived nodes of a table begin.
fn derived_nodes(bytes: &[u8]) -> Vec<usize> {
    let nodes = (6..bytes.len().saturating_sub(3)).step_by(4);
    nodes.filter(|&at| is_derived(bytes[at])).collect()
}

/// Gives a derived node a fourth byte that it may not have, mostly one that is
/// just wrong.
fn spoil_fourth(random: &mut Random, bytes: &mut [u8]) {
    let derived = derived_nodes(bytes);
    if derived.is_empty() {
        return;
    }
    let at = random.pick(&derived);
    let (m, n) = (bytes[at + 3] % 16, bytes[at + 3] / 16);
    bytes[at + 3] = match bytes[at] {
        _ if random.percent(25) => random.next() as u8,
        // m one above n, or the two the other way round
        23 | 24 => random.pick(&[n.min(14) * 17 + 1, m * 16 + n]),
        25 | 26 => 16 + random.pick(&[m, 0]),
        _ => 1 << random.below(8),
    };
}

/// Lets the operands of a derived node change places.
fn swap_operands(random: &mut Random, bytes: &mut [u8]) {
    let derived = derived_nodes(bytes);
    if !derived.is_empty() {
        let at = random.pick(&derived);
        bytes.swap(at + 1, at + 2);
    }
}

/// Makes every count of derived sequences 0, so that much matches no letters.
fn count_to_none(random: &mut Random, bytes: &mut [u8]) {
    for at in derived_nodes(bytes) {
        if matches!(bytes[at], 23..=26) && random.percent(80) {
            bytes[at + 3] = 0;
        }
    }
}

/// Puts what matches no letters, or nothing at all, over the sequence of a node
/// that expands to strong, weak or `|->`.
fn match_nothing(random: &mut Random, bytes: &mut Vec<u8>) {
    if let Some(Table { version, nodes }) = readable(bytes) {
        *bytes = table_bytes(version, &matching_nothing(random, nodes));
    }
}

/// The same for nodes, unless they have no such sequence or are too many.
pub fn matching_nothing(random: &mut Random, nodes: Vec<Node>) -> Vec<Node> {
    let mut asking: Vec<&Node> = nodes.iter().collect();
    asking.retain(|node| asked_sequence(node).is_some());
    if random.percent(70) {
        // the derived ones first: they are rarer
        asking.sort_by_key(|node| !is_derived(node.parts().0));
        asking.truncate(2);
    }
    let sequences: Vec<usize> = asking.into_iter().filter_map(asked_sequence).collect();
    if sequences.is_empty() || nodes.len() > 117 {
        return nodes;
    }
    let r = random.pick(&sequences);
    let none = Bounds { m: 0, n: 0 };
    // the first node of a table is a boolean: `R[*0] ##0 b`
    let over = |fuse| [Node::Empty(r), Node::Letter(0), fuse].to_vec();
    let above = match random.below(3) {
        0 => vec![Node::Derived(Derived::Times(r, none))],
        1 => over(Node::Fuse(r + 1, r + 2)),
        _ => over(Node::Derived(Derived::Delay(r + 1, r + 2, none))),
    };
    with_nodes_above(&nodes, r, &above)
}

/// The sequence of which a node, expanded, asks for a match.
fn asked_sequence(node: &Node) -> Option<usize> {
    match *node {
        Node::Strong(r) | Node::Weak(r) | Node::Implies(r, _) => Some(r),
        Node::Derived(
            Derived::ImpliesNext(r, _) | Derived::Followed(r, _) | Derived::FollowedNext(r, _),
        ) => Some(r),
        _ => None,
    }
}
