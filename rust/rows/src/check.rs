//! Checking a table: refusals 1 to 9, the first that applies.
use crate::answers::Verdict;
use crate::lines::{CLOCK, DERIVED, LINES};
use crate::operators::*;
use crate::tops::{flags, hollow};

/// The bytes before the nodes.
pub const HEADING: usize = 6;

/// The nodes of a table, at most.
pub const MOST: usize = 120;

/// The newest version of a table.
const NEWEST: u16 = 3;

/// A table read off its bytes.
pub struct Table<'a> {
    pub version: u8,
    pub nodes: &'a [[u8; 4]],
    /// Whether it has a clock node.
    pub is_clocked: bool,
    /// Whether all booleans stand before the first node of another sort.
    pub has_booleans_first: bool,
}

/// Refusals 1 to 9; number and node 0 where none applies.
pub fn check(table: &[u8]) -> Verdict {
    match checked(table) {
        Ok(_) => Verdict::default(),
        Err(refusal) => refusal,
    }
}

/// A table that gets none of 1 to 9. Only one that is not in order is gone through again, for its refusal.
pub fn checked(table: &[u8]) -> Result<Table<'_>, Verdict> {
    let mut table = parts(table)?;
    if !in_order(&mut table) {
        refusal(&table)?;
    }
    Ok(table)
}

/// Refusals 1 to 5.
fn parts(table: &[u8]) -> Result<Table<'_>, Verdict> {
    let Some((heading, rest)) = table.split_first_chunk::<HEADING>() else {
        return Err(Verdict::refusal(1));
    };
    if !heading.starts_with(b"SVT") {
        return Err(Verdict::refusal(2));
    }
    let version = u16::from_le_bytes([heading[3], heading[4]]);
    if version == 0 || version > NEWEST {
        return Err(Verdict::refusal(3));
    }
    let count = usize::from(heading[5]);
    if count == 0 || count > MOST {
        return Err(Verdict::refusal(4));
    }
    if rest.len() != 4 * count {
        return Err(Verdict::refusal(5));
    }
    Ok(Table {
        version: version as u8,
        nodes: rest.as_chunks().0,
        is_clocked: false,
        has_booleans_first: false,
    })
}

/// What the pass over the nodes has found so far. A byte indexes 256 places, so no index has a bound to check.
struct Found {
    sorts: [u8; 256],
    places: [u8; 256],
    flags: [u8; 256],
}

impl Default for Found {
    fn default() -> Self {
        Self {
            sorts: [NONE; 256],
            places: [0; 256],
            flags: [0; 256],
        }
    }
}

/// Whether the nodes are in order; where they are, says of the table what is asked later. Tables of base operators, and only they, go without what derived ones ask.
fn in_order(table: &mut Table) -> bool {
    match table.version {
        3 => pass::<true>(table),
        _ => pass::<false>(table),
    }
}

/// One pass with a few operations on words for each node, and what is asked of all nodes after it.
#[inline(never)]
fn pass<const HAS_DERIVED: bool>(table: &mut Table) -> bool {
    let lines = &LINES[usize::from(table.version & 3)];
    let root = table.nodes.len() - 1;
    let mut found = Found::default();
    let mut kinds = 0;
    let mut lacking = 0;
    // Of sequences and properties: whether one stands in two places, how many more places than nodes there are, and, in bit 1, whether there is one yet and whether a
    // boolean stands above one.
    let (mut twice, mut more_places, mut seen, mut late) = (0, 0_u8, 0, 0);
    for (k, &node) in (0_u8..).zip(table.nodes) {
        let [op, x, y, fourth] = node;
        let line = &lines[usize::from(op)];
        let (k, x, y) = (usize::from(k), usize::from(x), usize::from(y));
        let pair = u32::from(found.sorts[x]) + 4 * u32::from(found.sorts[y]);
        if u32::from_le_bytes(node) & line.zeros != 0
            || u32::from(line.pairs).wrapping_shr(pair) & 1 == 0
        {
            return false;
        }
        let (flags_x, flags_y) = (found.flags[x], found.flags[y]);
        let pair = 2 * u32::from(flags_x) + 8 * u32::from(flags_y);
        found.flags[k] = (line.flags.wrapping_shr(pair) & 3) as u8;
        lacking |= line.asked & !flags_x;
        if HAS_DERIVED && line.kind == DERIVED {
            found.flags[k] = flags(op, fourth, flags_x, flags_y);
            let fits = OPERATORS[usize::from(op)].fourth.fits(fourth);
            lacking |= u8::from(!fits || hollow(op, flags_x));
        }
        kinds |= line.kind;
        found.sorts[k] = line.own;
        let [in_x, in_y] = line.places;
        twice |= found.places[x] & in_x;
        found.places[x] |= in_x;
        twice |= found.places[y] & in_y;
        found.places[y] |= in_y;
        more_places = more_places.wrapping_add(line.more_places);
        seen |= line.own;
        late |= seen & !line.own;
    }
    table.is_clocked = kinds & CLOCK != 0;
    table.has_booleans_first = late & 2 == 0;
    // None stands in two places, so all but the root stand in one where there is one place less.
    let each_in_one = twice == 0 && more_places == u8::MAX;
    lacking == 0 && each_in_one && found.sorts[root] != BOOLEAN
}

/// Refusals 6 to 9: one pass that asks 6 and gathers what 7 and 9 need, since 6 is asked of all nodes first.
#[cold]
fn refusal(table: &Table) -> Result<(), Verdict> {
    let nodes = table.nodes;
    let mut found = Found::default();
    let mut first_hollow = None;
    for (k, &[op, x, y, fourth]) in nodes.iter().enumerate() {
        let operator = OPERATORS[usize::from(op)];
        let known = operator.is_known(table.version);
        let serves = known && fits(&found.sorts, operator, x, y);
        if !serves || !operator.fourth.fits(fourth) {
            return Err(Verdict::at(6, k));
        }
        let (x, y) = (usize::from(x), usize::from(y));
        found.sorts[k] = operator.own;
        found.places[x] += u8::from(operator.x >= SEQUENCE);
        found.places[y] += u8::from(operator.y >= SEQUENCE);
        found.flags[k] = flags(op, fourth, found.flags[x], found.flags[y]);
        if first_hollow.is_none() && hollow(op, found.flags[x]) {
            first_hollow = Some(k);
        }
    }
    if let Some(k) = first_astray(&found, nodes.len()) {
        return Err(Verdict::at(7, k));
    }
    if found.sorts[nodes.len() - 1] == BOOLEAN {
        return Err(Verdict::refusal(8));
    }
    first_hollow.map_or(Ok(()), |k| Err(Verdict::at(9, k)))
}

/// Whether the operands are in order. A node that is not below has no sort yet, so its sort is not the one asked for.
fn fits(sorts: &[u8; 256], operator: Operator, x: u8, y: u8) -> bool {
    let serves = |sort: u8, limit: u8, v: u8| match sort {
        NONE => v < limit,
        _ => sorts[usize::from(v)] == sort,
    };
    serves(operator.x, operator.limit, x) && serves(operator.y, 1, y)
}

/// The lowest sequence or property, not the root, in other than one operand place.
fn first_astray(found: &Found, count: usize) -> Option<usize> {
    let sorts = &found.sorts[..count - 1];
    let places = &found.places[..count - 1];
    sorts
        .iter()
        .zip(places)
        .position(|(&sort, &places)| sort >= SEQUENCE && places != 1)
}
