//! Random tables and records, from a seed.

pub use crate::numbers::Random;

impl Random {
    fn one_in(&mut self, times: usize) -> bool {
        self.below(times) == 0
    }

    /// Takes one of the list away.
    fn take(&mut self, from: &mut Vec<u8>) -> u8 {
        from.swap_remove(self.below(from.len()))
    }
}

/// A table in the making: its nodes, the booleans so far, and the sequences and properties that stand in no operand place yet.
#[derive(Default)]
struct Making {
    nodes: Vec<[u8; 4]>,
    booleans: Vec<u8>,
    sequences: Vec<u8>,
    properties: Vec<u8>,
}

impl Making {
    fn node(&mut self, op: u8, x: u8, y: u8) -> u8 {
        self.nodes.push([op, x, y, 0]);
        self.nodes.len() as u8 - 1
    }

    fn add_boolean(&mut self, r: &mut Random) {
        let made = match r.below(if self.booleans.is_empty() { 2 } else { 6 }) {
            0 => self.node(0, r.below(2) as u8, 0),
            1 => self.node(1, r.below(4) as u8, 0),
            2 => self.node(2, r.pick(&self.booleans), 0),
            3 => self.node(3, r.pick(&self.booleans), r.pick(&self.booleans)),
            4 => self.node(4, r.pick(&self.booleans), r.pick(&self.booleans)),
            _ => self.node(1, r.below(64) as u8, 0),
        };
        self.booleans.push(made);
    }

    /// A signal that has risen or fallen.
    fn add_edge(&mut self, r: &mut Random) {
        let signals = [4, 64][r.below(2)];
        let made = self.node(r.pick(&[5, 6]), r.below(signals) as u8, 0);
        self.booleans.push(made);
    }

    fn add_sequence(&mut self, r: &mut Random) {
        let op = match self.sequences.len() {
            0 => 16,
            1 => r.pick(&[16, 16, 16, 16, 21, 21, 22]),
            _ if r.one_in(12) => 20,
            _ => r.pick(&[16, 16, 17, 17, 18, 19, 19, 21, 21, 22]),
        };
        let made = match op {
            16 => self.node(16, r.pick(&self.booleans), 0),
            20 | 21 => {
                let x = r.take(&mut self.sequences);
                self.node(op, x, 0)
            }
            22 => {
                let y = r.take(&mut self.sequences);
                self.node(22, r.pick(&self.booleans), y)
            }
            _ => {
                let x = r.take(&mut self.sequences);
                let y = r.take(&mut self.sequences);
                self.node(op, x, y)
            }
        };
        self.sequences.push(made);
    }

    fn add_property(&mut self, r: &mut Random) {
        let op = match (self.sequences.len(), self.properties.len()) {
            (0, 0) => return,
            (_, 0) => r.pick(&[32, 33]),
            (0, 1) => r.pick(&[34, 38, 40]),
            (0, _) => r.pick(&[34, 35, 36, 38, 39, 40]),
            (_, 1) => r.pick(&[32, 33, 34, 37, 37, 38, 40]),
            _ => r.pick(&[32, 33, 34, 35, 36, 37, 38, 39, 40]),
        };
        let x = match op {
            32 | 33 | 37 => r.take(&mut self.sequences),
            40 => r.pick(&self.booleans),
            _ => r.take(&mut self.properties),
        };
        let y = match op {
            35 | 36 | 37 | 39 | 40 => r.take(&mut self.properties),
            _ => 0,
        };
        let made = self.node(op, x, y);
        self.properties.push(made);
    }

    /// Joins what stands in no place into one sequence.
    fn join_sequences(&mut self, r: &mut Random) {
        while self.sequences.len() > 1 {
            let x = r.take(&mut self.sequences);
            let y = r.take(&mut self.sequences);
            let made = self.node(r.pick(&[17, 18, 19]), x, y);
            self.sequences.push(made);
        }
    }

    /// Joins what stands in no place into one property.
    fn join_all(&mut self, r: &mut Random) {
        while let Some(x) = self.sequences.pop() {
            let made = self.node(r.pick(&[32, 33]), x, 0);
            self.properties.push(made);
        }
        while self.properties.len() > 1 {
            let x = r.take(&mut self.properties);
            let y = r.take(&mut self.properties);
            let made = self.node(r.pick(&[35, 36, 39]), x, y);
            self.properties.push(made);
        }
    }
}

/// What stands at a table's root.
#[derive(Clone, Copy, PartialEq, Eq)]
enum Root {
    Boolean,
    Sequence,
    Property,
}

/// A table of the version, mostly one that is accepted.
pub fn table(r: &mut Random, version: u8) -> Vec<u8> {
    let about = [3, 8, 20, 40, 70, 100][r.below(6)];
    let root = match r.below(20) {
        0 => Root::Boolean,
        1..=4 => Root::Sequence,
        _ => Root::Property,
    };
    let mut making = Making::default();
    making.add_boolean(r);
    while making.nodes.len() < about {
        match r.below(6) {
            _ if version == 2 && r.one_in(8) => making.add_edge(r),
            _ if root == Root::Boolean => making.add_boolean(r),
            0 => making.add_boolean(r),
            4.. if root == Root::Property => making.add_property(r),
            _ => making.add_sequence(r),
        }
    }
    match root {
        Root::Boolean => (),
        Root::Sequence => making.join_sequences(r),
        Root::Property => making.join_all(r),
    }
    let mut bytes = vec![b'S', b'V', b'T', version, 0, making.nodes.len() as u8];
    bytes.extend(making.nodes.concat());
    bytes
}

/// Samples of four signals, some records with the same sample again and again, and a few of all signals.
pub fn samples(r: &mut Random, n: usize) -> Vec<u64> {
    let mask = r.pick(&[0, 1, 3, 7, 15, 15, 255]);
    let mask = if mask == 255 { u64::MAX } else { mask.into() };
    let steady = r.word() & mask;
    let sometimes = 1 + r.below(6);
    (0..n)
        .map(|_| {
            if r.one_in(sometimes) {
                r.word() & mask
            } else {
                steady
            }
        })
        .collect()
}
