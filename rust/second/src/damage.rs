//! Damaging tables and records, so that every refusal is met.

use crate::node::{Node, Sort, OPERATORS};
use crate::random::Random;
use crate::table::{readable, table_bytes, Table};

/// What a header may get as its version. 257, 258 and 512 have a byte 1 or 2
/// but are neither; 2 is no version of a record.
const VERSIONS: [u16; 7] = [0, 2, 3, 4, 257, 258, 512];

/// Damages a table once, in one of many ways.
pub fn damage_table(random: &mut Random, bytes: &mut Vec<u8>) {
    match random.weighted(&[22, 18, 30, 12, 20, 14, 20, 4]) {
        0 => damage_bytes(random, bytes),
        1 => damage_header(random, bytes),
        2 => damage_node(random, bytes),
        3 => move_operand(random, bytes),
        4 => make_hollow(random, bytes),
        5 => make_boolean_root(random, bytes),
        6 => damage_signal(random, bytes),
        _ => *bytes = random_bytes(random, 40),
    }
}

/// Damages any bytes: flip, insert, delete, truncate, append or empty.
pub fn damage_bytes(random: &mut Random, bytes: &mut Vec<u8>) {
    let at = random.below(bytes.len().max(1));
    match random.below(7) {
        0 if at < bytes.len() => bytes[at] ^= 1 << random.below(8),
        1 => bytes.insert(at.min(bytes.len()), random.next() as u8),
        2 if at < bytes.len() => {
            bytes.remove(at);
        }
        3 => bytes.truncate(at),
        4 => bytes.truncate(random.below(7)),
        5 => bytes.extend(random_bytes(random, 9)),
        _ if random.percent(20) => bytes.clear(),
        _ => bytes.push(b'\n'),
    }
}

/// Changes mark, version or count; the count with or without the length.
pub fn damage_header(random: &mut Random, bytes: &mut Vec<u8>) {
    if bytes.len() < 6 {
        return;
    }
    match random.below(9) {
        0 | 1 => bytes[random.below(3)] = random.pick(b"SVTWsvtw\0"),
        2..=4 => set_version(bytes, random.pick(&VERSIONS)),
        5 => bytes[5] = random.pick(&[0, 120, 121, 63, 64, 255]),
        6 => bytes[5] = random.next() as u8,
        7 => bytes[5] = bytes[5].wrapping_add(random.pick(&[1, 255])),
        _ => {
            bytes[5] = random.pick(&[0, 121, 130, 255]);
            bytes.resize(6 + 4 * usize::from(bytes[5]), 0);
        }
    }
}

/// Changes the version of a header.
pub fn set_version(bytes: &mut [u8], version: u16) {
    bytes[3..5].copy_from_slice(&version.to_le_bytes());
}

/// Some random bytes, often with a good beginning.
fn random_bytes(random: &mut Random, most: usize) -> Vec<u8> {
    let mut bytes: Vec<u8> = (0..random.below(most + 1))
        .map(|_| random.next() as u8)
        .collect();
    if random.percent(50) {
        let good_start = [b'S', b'V', b'T', random.pick(&[1, 2]), 0];
        for (byte, good) in bytes.iter_mut().zip(good_start) {
            *byte = good;
        }
    }
    bytes
}

/// Where a random node begins, if there is a whole one.
fn random_node(random: &mut Random, bytes: &[u8]) -> Option<(usize, usize)> {
    let count = bytes.len().saturating_sub(6) / 4;
    if count == 0 {
        return None;
    }
    let node = random.below(count);
    Some((node, 6 + 4 * node))
}

/// Damages one node: operator, x, y, fourth byte; or drops or doubles it.
fn damage_node(random: &mut Random, bytes: &mut Vec<u8>) {
    let Some((node, at)) = random_node(random, bytes) else {
        return;
    };
    let place = at + random.between(1, 2);
    match random.below(9) {
        0 => bytes[at] = random.next() as u8,
        1 => bytes[at] = random.pick(&OPERATORS),
        2 => bytes[place] = random.below(node + 1) as u8,
        3 => bytes[place] = random.between(node, node + 2) as u8,
        4 => bytes[place] = random.next() as u8,
        5 => bytes[at + 3] = 1 << random.below(8),
        6 => spoil_number(random, bytes),
        7 => drop_node(bytes, at),
        _ => double_node(bytes, at),
    }
}

/// Gives a constant or a signal a number just too large.
fn spoil_number(random: &mut Random, bytes: &mut [u8]) {
    for node in bytes[6..].chunks_exact_mut(4) {
        let too_large = match node[0] {
            0 => 2,
            1 | 5 | 6 => 64,
            _ => continue,
        };
        if random.percent(50) {
            node[1] = too_large;
            return;
        }
    }
}

/// Damages a node that names a signal, or makes it risen or fallen in version 1,
/// where there is no such node.
fn damage_signal(random: &mut Random, bytes: &mut [u8]) {
    let nodes = (6..bytes.len().saturating_sub(3)).step_by(4);
    let signals: Vec<usize> = nodes.filter(|&at| matches!(bytes[at], 1 | 5 | 6)).collect();
    if signals.is_empty() {
        return;
    }
    let at = random.pick(&signals);
    match random.below(6) {
        0 => set_version(bytes, 1),
        1 => bytes[at] = random.between(7, 15) as u8,
        2 => bytes[at + 1] = random.pick(&[64, 65, 128, 255]),
        3 => bytes[at + random.between(2, 3)] = 1 << random.below(8),
        _ => {
            set_version(bytes, 1);
            bytes[at] = random.pick(&[5, 6]);
        }
    }
}

/// Takes a node out and lowers the count, but renumbers nothing.
fn drop_node(bytes: &mut Vec<u8>, at: usize) {
    bytes.drain(at..at + 4);
    bytes[5] = bytes[5].wrapping_sub(1);
}

/// Puts a copy of a node at the end as the root and raises the count.
fn double_node(bytes: &mut Vec<u8>, at: usize) {
    bytes.extend_from_within(at..at + 4);
    bytes[5] = bytes[5].wrapping_add(1);
}

/// Points one operand to another node of the same sort, so that a node is used
/// twice and another never.
fn move_operand(random: &mut Random, bytes: &mut [u8]) {
    let Some(Table { nodes, .. }) = readable(bytes) else {
        return;
    };
    let mut moves = Vec::new();
    for (index, node) in nodes.iter().enumerate() {
        let (_, [x, ..]) = node.parts();
        for operand in node.operands() {
            let sort = nodes[operand].sort();
            let others = (0..index).filter(|&other| other != operand);
            let alike =
                others.filter(|&other| sort != Sort::Boolean && nodes[other].sort() == sort);
            let place = if operand == x { 1 } else { 2 };
            moves.extend(alike.map(|other| (6 + 4 * index + place, other)));
        }
    }
    if !moves.is_empty() {
        let (place, other) = random.pick(&moves);
        bytes[place] = other as u8;
    }
}

/// Puts `[*0]` over the sequence of a strong, weak or `|->`.
fn make_hollow(random: &mut Random, bytes: &mut Vec<u8>) {
    let Some(Table { version, nodes }) = readable(bytes) else {
        return;
    };
    let sequence = |node: &Node| match *node {
        Node::Strong(r) | Node::Weak(r) | Node::Implies(r, _) => Some(r),
        _ => None,
    };
    let sequences: Vec<usize> = nodes.iter().filter_map(sequence).collect();
    if sequences.is_empty() || nodes.len() >= 120 {
        return;
    }
    let r = random.pick(&sequences);
    *bytes = table_bytes(version, &with_nodes_above(&nodes, r, &[Node::Empty(r)]));
}

/// The table with new nodes right after node r, the last of which takes r's place.
pub fn with_nodes_above(nodes: &[Node], r: usize, above: &[Node]) -> Vec<Node> {
    let moved = |old: usize| if old >= r { old + above.len() } else { old };
    let mut out: Vec<Node> = nodes[..=r].to_vec();
    out.extend(above);
    out.extend(nodes[r + 1..].iter().map(|node| node.renumbered(moved)));
    out
}

/// Keeps the booleans only, or puts one more boolean at the end.
fn make_boolean_root(random: &mut Random, bytes: &mut Vec<u8>) {
    let Some(Table { version, nodes }) = readable(bytes) else {
        return;
    };
    let mut kept: Vec<Node> = Vec::new();
    if random.percent(80) {
        let leaves = nodes.iter().filter(|node| node.sort() == Sort::Boolean);
        kept.extend(leaves.filter(|node| node.operands().count() == 0));
    } else if nodes.len() < 120 {
        kept.extend(nodes);
    }
    kept.push(Node::Constant(1));
    *bytes = table_bytes(version, &kept);
}
