//! Tables made node by node. Each function adds a node and answers its index.

/// Operators that version 1 does not know, and those that version 2 does not.
const RISEN: u8 = 5;
const FALLEN: u8 = 6;
const TIMES: u8 = 23;
const DELAY: u8 = 24;
const GOTO: u8 = 25;
const IMPLIES_NEXT: u8 = 41;
const ALWAYS: u8 = 44;
const STRONG_UNTIL: u8 = 46;

#[derive(Default)]
pub struct Nodes(Vec<[u8; 4]>);

impl Nodes {
    fn add(&mut self, op: u8, x: u8, y: u8) -> u8 {
        self.add_with(op, x, y, 0)
    }

    fn add_with(&mut self, op: u8, x: u8, y: u8, fourth: u8) -> u8 {
        self.0.push([op, x, y, fourth]);
        u8::try_from(self.0.len() - 1).expect("at most 120 nodes")
    }

    pub fn constant(&mut self, value: u8) -> u8 {
        self.add(0, value, 0)
    }

    pub fn signal(&mut self, s: u8) -> u8 {
        self.add(1, s, 0)
    }

    pub fn boolean_not(&mut self, b: u8) -> u8 {
        self.add(2, b, 0)
    }

    pub fn boolean_and(&mut self, a: u8, b: u8) -> u8 {
        self.add(3, a, b)
    }

    pub fn boolean_or(&mut self, a: u8, b: u8) -> u8 {
        self.add(4, a, b)
    }

    pub fn risen(&mut self, s: u8) -> u8 {
        self.add(RISEN, s, 0)
    }

    pub fn fallen(&mut self, s: u8) -> u8 {
        self.add(FALLEN, s, 0)
    }

    pub fn letter(&mut self, b: u8) -> u8 {
        self.add(16, b, 0)
    }

    pub fn then(&mut self, a: u8, b: u8) -> u8 {
        self.add(17, a, b)
    }

    pub fn fused(&mut self, a: u8, b: u8) -> u8 {
        self.add(18, a, b)
    }

    pub fn either(&mut self, a: u8, b: u8) -> u8 {
        self.add(19, a, b)
    }

    pub fn empty(&mut self, a: u8) -> u8 {
        self.add(20, a, 0)
    }

    pub fn repeat(&mut self, a: u8) -> u8 {
        self.add(21, a, 0)
    }

    pub fn clocked_sequence(&mut self, c: u8, a: u8) -> u8 {
        self.add(22, c, a)
    }

    pub fn strong(&mut self, a: u8) -> u8 {
        self.add(32, a, 0)
    }

    pub fn weak(&mut self, a: u8) -> u8 {
        self.add(33, a, 0)
    }

    pub fn not(&mut self, p: u8) -> u8 {
        self.add(34, p, 0)
    }

    pub fn or(&mut self, p: u8, q: u8) -> u8 {
        self.add(35, p, q)
    }

    pub fn and(&mut self, p: u8, q: u8) -> u8 {
        self.add(36, p, q)
    }

    pub fn implies(&mut self, a: u8, p: u8) -> u8 {
        self.add(37, a, p)
    }

    pub fn nexttime(&mut self, p: u8) -> u8 {
        self.add(38, p, 0)
    }

    pub fn until(&mut self, p: u8, q: u8) -> u8 {
        self.add(39, p, q)
    }

    pub fn clocked(&mut self, c: u8, p: u8) -> u8 {
        self.add(40, c, p)
    }

    /// `a[*m:n]`
    pub fn times(&mut self, a: u8, m: u8, n: u8) -> u8 {
        self.add_with(TIMES, a, 0, m + 16 * n)
    }

    /// `a ##[m:n] b`
    pub fn delay(&mut self, a: u8, b: u8, m: u8, n: u8) -> u8 {
        self.add_with(DELAY, a, b, m + 16 * n)
    }

    /// `b[->m]`
    pub fn goto(&mut self, b: u8, m: u8) -> u8 {
        self.add_with(GOTO, b, 0, m)
    }

    pub fn implies_next(&mut self, a: u8, p: u8) -> u8 {
        self.add(IMPLIES_NEXT, a, p)
    }

    pub fn always(&mut self, p: u8) -> u8 {
        self.add(ALWAYS, p, 0)
    }

    pub fn strong_until(&mut self, p: u8, q: u8) -> u8 {
        self.add(STRONG_UNTIL, p, q)
    }

    pub fn len(&self) -> usize {
        self.0.len()
    }

    /// The first version that knows all nodes.
    fn version(&self) -> u8 {
        let first = |node: &[u8; 4]| match node[0] {
            RISEN | FALLEN => 2,
            TIMES..=GOTO | IMPLIES_NEXT..=STRONG_UNTIL => 3,
            _ => 1,
        };
        self.0.iter().map(first).max().unwrap_or(1)
    }

    /// The table's bytes; the last node is the root.
    pub fn table(&self) -> Vec<u8> {
        let count = u8::try_from(self.0.len()).expect("at most 120 nodes");
        let mut bytes = vec![b'S', b'V', b'T', self.version(), 0, count];
        bytes.extend(self.0.concat());
        bytes
    }
}

/// How many nodes the rewritten table has; 0 for a table that is refused.
pub fn rewritten_count(table: &[u8]) -> usize {
    rows::rewrite(table, &mut [0; 486]).count
}

/// How many nodes the rewriting of a table whose root is a clock would have, past 120 too: everything in it is under a clock.
pub fn clocked_count(table: &[u8]) -> usize {
    let block = |operator: &u8| match operator {
        22 | 40 => 0,
        16 | 39 => 9,
        38 => 14,
        _ => 1,
    };
    table.iter().skip(6).step_by(4).map(block).sum()
}
