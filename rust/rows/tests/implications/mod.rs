//! Random tables in which every strong and weak stands on the right of a `|->`, so that a record may well leave them untested.
use crate::random::Random;

/// The booleans that a table begins with: 1, signals 0 to 2, and a signal that is low.
const BOOLEANS: [[u8; 4]; 5] = [
    [0, 1, 0, 0],
    [1, 0, 0, 0],
    [1, 1, 0, 0],
    [1, 2, 0, 0],
    [2, 1, 0, 0],
];

/// A table in the making. Each function adds nodes and answers the index of the last.
struct Making<'a> {
    r: &'a mut Random,
    nodes: Vec<[u8; 4]>,
}

impl Making<'_> {
    fn node(&mut self, op: u8, x: u8, y: u8) -> u8 {
        self.nodes.push([op, x, y, 0]);
        self.nodes.len() as u8 - 1
    }

    fn boolean(&mut self) -> u8 {
        self.r.below(BOOLEANS.len()) as u8
    }

    fn sequence(&mut self, depth: usize) -> u8 {
        let op = match depth {
            0 => 16,
            _ => self.r.pick(&[16, 16, 17, 18, 19, 20, 21, 21, 22]),
        };
        let x = match op {
            16 | 22 => self.boolean(),
            _ => self.sequence(depth - 1),
        };
        let y = match op {
            17..=19 | 22 => self.sequence(depth - 1),
            _ => 0,
        };
        self.node(op, x, y)
    }

    /// `R |-> strong(b)` or weak of it, and so many more properties above that.
    fn property(&mut self, depth: usize) -> u8 {
        if depth == 0 {
            let left = self.sequence(2);
            let letter = self.sequence(0);
            let op = self.r.pick(&[32, 33]);
            let right = self.node(op, letter, 0);
            return self.node(37, left, right);
        }
        let op = self
            .r
            .pick(&[34, 35, 36, 37, 37, 38, 38, 39, 39, 39, 40, 40]);
        let x = match op {
            37 => self.sequence(2),
            40 => self.boolean(),
            _ => self.property(depth - 1),
        };
        let y = match op {
            34 | 38 => 0,
            _ => self.property(depth - 1),
        };
        self.node(op, x, y)
    }
}

/// A table of version 1, mostly one that is accepted.
pub fn table(r: &mut Random) -> Vec<u8> {
    let depth = r.below(4);
    let mut making = Making {
        r,
        nodes: BOOLEANS.to_vec(),
    };
    making.property(depth);
    let nodes = making.nodes;
    let mut bytes = vec![b'S', b'V', b'T', 1, 0, nodes.len() as u8];
    bytes.extend(nodes.concat());
    bytes
}
