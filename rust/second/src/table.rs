//! Reading a table from bytes, with refusals 1 to 9 in their order.

use crate::hollow::{hollow_by_letters, hollow_by_tops};
use crate::node::{known_in, places, Node, Place, Sort};
use crate::verdict::{refuse_if, Verdict};
use crate::versions::NEWEST;

/// The most nodes a table may have, before and after expanding and rewriting.
pub const MOST_NODES: usize = 120;

/// A table as it was read.
pub struct Table {
    pub version: u16,
    pub nodes: Vec<Node>,
}

/// The table, if it passes all nine refusals; its version is at most the newest.
pub fn checked(bytes: &[u8], newest: u16) -> Result<Table, Verdict> {
    let table = decoded(bytes, newest)?;
    check_places(&table.nodes)?;
    let root_is_boolean = table.nodes.last().map(|root| root.sort()) == Some(Sort::Boolean);
    refuse_if(root_is_boolean, 8)?;
    let hollow = match table.version {
        3 => hollow_by_tops(&table.nodes),
        _ => hollow_by_letters(&table.nodes),
    };
    match hollow {
        Some(node) => Err(Verdict::refused_at(9, node)),
        None => Ok(table),
    }
}

/// Refusals 1 to 5: length, mark, version and count. Gives the version.
fn check_header(bytes: &[u8], newest: u16) -> Result<u16, Verdict> {
    refuse_if(bytes.len() < 6, 1)?;
    refuse_if(bytes[..3] != *b"SVT", 2)?;
    let version = u16::from_le_bytes([bytes[3], bytes[4]]);
    refuse_if(!(1..=newest).contains(&version), 3)?;
    let count = usize::from(bytes[5]);
    refuse_if(count == 0 || count > MOST_NODES, 4)?;
    refuse_if(bytes.len() != 6 + 4 * count, 5)?;
    Ok(version)
}

/// Refusals 1 to 5, then 6: the lowest node that cannot be read.
fn decoded(bytes: &[u8], newest: u16) -> Result<Table, Verdict> {
    let version = check_header(bytes, newest)?;
    let mut nodes = Vec::new();
    for quad in bytes[6..].chunks_exact(4) {
        let node = decoded_node(quad, version, &nodes);
        nodes.push(node.ok_or(Verdict::refused_at(6, nodes.len()))?);
    }
    Ok(Table { version, nodes })
}

/// One node, if its operator is known and its x, y and fourth byte are good.
fn decoded_node(quad: &[u8], version: u16, below: &[Node]) -> Option<Node> {
    let held = [quad[1], quad[2], quad[3]].map(usize::from);
    let places = places(quad[0]).filter(|_| known_in(version, quad[0]))?;
    let fitting = |(place, held)| fits(place, held, below);
    if places.into_iter().zip(held).all(fitting) {
        Node::new(quad[0], held)
    } else {
        None
    }
}

/// Whether a byte fits its place; an operand must be one of the nodes below.
fn fits(place: Place, held: usize, below: &[Node]) -> bool {
    match place {
        Place::Unused => held == 0,
        Place::Number(most) => held <= most,
        Place::Bounds => held % 16 <= held / 16,
        Place::Operand(sort) => below.get(held).is_some_and(|node| node.sort() == sort),
    }
}

/// Refusal 7: each sequence or property but the root has one operand place.
fn check_places(table: &[Node]) -> Result<(), Verdict> {
    let mut used = vec![0; table.len()];
    for operand in table.iter().flat_map(|node| node.operands()) {
        used[operand] += 1;
    }
    let root = table.len() - 1;
    for (index, node) in table[..root].iter().enumerate() {
        if node.sort() != Sort::Boolean && used[index] != 1 {
            return Err(Verdict::refused_at(7, index));
        }
    }
    Ok(())
}

/// The bytes of a table; the nodes must be few enough for one count byte.
pub fn table_bytes(version: u16, nodes: &[Node]) -> Vec<u8> {
    let mut bytes = b"SVT".to_vec();
    bytes.extend(version.to_le_bytes());
    bytes.push(nodes.len() as u8);
    for node in nodes {
        let (operator, held) = node.parts();
        bytes.push(operator);
        bytes.extend(held.map(|byte| byte as u8));
    }
    bytes
}

/// The table of bytes that pass refusals 1 to 6, for tools that change tables.
pub fn readable(bytes: &[u8]) -> Option<Table> {
    decoded(bytes, NEWEST).ok()
}
