//! Random tables and samples, from fixed seeds.
use crate::nodes::{rewritten_count, Nodes};

/// A generator of numbers (splitmix64): the same seed gives the same numbers.
pub struct Random(u64);

impl Random {
    pub fn new(seed: u64) -> Self {
        Self(seed)
    }

    fn word(&mut self) -> u64 {
        self.0 = self.0.wrapping_add(0x9e37_79b9_7f4a_7c15);
        let mut z = self.0;
        z = (z ^ (z >> 30)).wrapping_mul(0xbf58_476d_1ce4_e5b9);
        z = (z ^ (z >> 27)).wrapping_mul(0x94d0_49bb_1331_11eb);
        z ^ (z >> 31)
    }

    /// A number from `from` to `to`.
    fn between(&mut self, from: usize, to: usize) -> usize {
        from + (self.word() % (to - from + 1) as u64) as usize
    }
}

/// How many booleans a random table begins with.
const BOOLEANS: u8 = 8;

/// What random tables are made of.
#[derive(Clone, Copy, PartialEq, Eq)]
pub enum Kind {
    /// Signals, with no clock.
    Plain,
    /// Signals, with a clock round all and others inside.
    Clocked,
    /// The same tables as `Plain`, but for a signal that has risen and one that has fallen in the place of two signals.
    Pairs,
}

/// A table whose rewritten count is from `least` to `most`.
pub fn table(r: &mut Random, least: usize, most: usize, kind: Kind) -> Vec<u8> {
    loop {
        // A letter under a clock becomes nine nodes, so a clocked table begins with fewer.
        let room = if kind == Kind::Clocked {
            most / 4
        } else {
            most
        };
        let size = r.between((room / 2).max(10), room);
        let table = attempt(r, size, kind);
        if (least..=most).contains(&rewritten_count(&table)) {
            return table;
        }
    }
}

/// A clocked table of so many nodes that is not refused, however many it has when rewritten.
pub fn clocked_table(r: &mut Random, nodes: usize) -> Vec<u8> {
    loop {
        let table = attempt(r, nodes, Kind::Clocked);
        if usize::from(table[5]) == nodes && rows::check(&table).number == 0 {
            return table;
        }
    }
}

/// A table of so many nodes, which may be refused or too long when rewritten.
fn attempt(r: &mut Random, size: usize, kind: Kind) -> Vec<u8> {
    let mut nodes = Nodes::default();
    signals(&mut nodes, kind);
    booleans(r, &mut nodes);
    let left = size - nodes.len();
    if kind == Kind::Clocked {
        let p = property(r, &mut nodes, left.max(3) - 1, true);
        nodes.clocked(0, p);
    } else {
        property(r, &mut nodes, left.max(2), false);
    }
    nodes.table()
}

/// Signals 0 to 3.
fn signals(nodes: &mut Nodes, kind: Kind) {
    nodes.signal(0);
    nodes.signal(1);
    if kind == Kind::Pairs {
        nodes.risen(2);
        nodes.fallen(3);
    } else {
        nodes.signal(2);
        nodes.signal(3);
    }
}

/// What is made of the signals.
fn booleans(r: &mut Random, nodes: &mut Nodes) {
    for made in 4..BOOLEANS {
        let a = r.between(0, usize::from(made) - 1) as u8;
        let b = r.between(0, usize::from(made) - 1) as u8;
        match r.between(0, 2) {
            0 => nodes.boolean_not(a),
            1 => nodes.boolean_and(a, b),
            _ => nodes.boolean_or(a, b),
        };
    }
}

fn boolean(r: &mut Random) -> u8 {
    r.between(0, usize::from(BOOLEANS) - 1) as u8
}

/// A sequence of `size` nodes, at least 1.
fn sequence(r: &mut Random, nodes: &mut Nodes, size: usize, clocked: bool) -> u8 {
    if size == 1 {
        return nodes.letter(boolean(r));
    }
    if size == 2 || r.between(0, 3) == 0 {
        let a = sequence(r, nodes, size - 1, clocked);
        return match r.between(0, 5) {
            0 => nodes.empty(a),
            1 if clocked => nodes.clocked_sequence(boolean(r), a),
            _ => nodes.repeat(a),
        };
    }
    let first = r.between(1, size - 2);
    let a = sequence(r, nodes, first, clocked);
    let b = sequence(r, nodes, size - 1 - first, clocked);
    match r.between(0, 4) {
        0 | 1 => nodes.then(a, b),
        2 => nodes.fused(a, b),
        _ => nodes.either(a, b),
    }
}

/// A property of `size` nodes, at least 2.
fn property(r: &mut Random, nodes: &mut Nodes, size: usize, clocked: bool) -> u8 {
    if size < 5 || r.between(0, 7) == 0 && size < 20 {
        let a = sequence(r, nodes, size - 1, clocked);
        return match r.between(0, 1) {
            0 => nodes.strong(a),
            _ => nodes.weak(a),
        };
    }
    if r.between(0, 4) == 0 {
        let p = property(r, nodes, size - 1, clocked);
        return match r.between(0, 2) {
            0 => nodes.not(p),
            1 if clocked => nodes.clocked(boolean(r), p),
            _ => nodes.nexttime(p),
        };
    }
    let first = r.between(2, size - 3);
    let kind = r.between(0, 4);
    if kind < 2 {
        let a = sequence(r, nodes, first, clocked);
        let p = property(r, nodes, size - 1 - first, clocked);
        return nodes.implies(a, p);
    }
    let p = property(r, nodes, first, clocked);
    let q = property(r, nodes, size - 1 - first, clocked);
    match kind {
        2 => nodes.or(p, q),
        3 => nodes.and(p, q),
        _ => nodes.until(p, q),
    }
}

/// Samples in which a signal is set three times in four, so that matches grow long.
pub fn samples(r: &mut Random, n: usize) -> Vec<u64> {
    (0..n).map(|_| r.word() | r.word()).collect()
}
