//! The nodes of a table: operators, sorts and operands.

use crate::derived::Derived;

/// The three sorts of node.
#[derive(Clone, Copy, Debug, PartialEq, Eq)]
pub enum Sort {
    Boolean,
    Sequence,
    Property,
}

/// What x, y or the fourth byte of an operator holds.
#[derive(Clone, Copy, Debug, PartialEq, Eq)]
pub enum Place {
    /// The byte must be 0.
    Unused,
    /// A plain number, at most this large: no operand.
    Number(usize),
    /// m + 16n, with m at most n.
    Bounds,
    /// The index of a node of this sort.
    Operand(Sort),
}

/// One node. Operands are indices of nodes below it.
#[derive(Clone, Copy, Debug, PartialEq, Eq)]
pub enum Node {
    Constant(usize),
    Signal(usize),
    /// The signal has risen since the sample before.
    Risen(usize),
    /// The signal has fallen since the sample before.
    Fallen(usize),
    Not(usize),
    And(usize, usize),
    Or(usize, usize),
    /// One letter satisfying a boolean.
    Letter(usize),
    /// `##1`
    Then(usize, usize),
    /// `##0`
    Fuse(usize, usize),
    /// or of sequences
    Either(usize, usize),
    /// `[*0]`
    Empty(usize),
    /// `[*1:$]`
    Repeat(usize),
    /// `@(c) R`
    ClockSequence(usize, usize),
    Strong(usize),
    Weak(usize),
    NotProperty(usize),
    OrProperty(usize, usize),
    AndProperty(usize, usize),
    /// `R |-> P`
    Implies(usize, usize),
    Nexttime(usize),
    Until(usize, usize),
    /// `@(c) P`
    ClockProperty(usize, usize),
    /// A node that version 3 expands.
    Derived(Derived),
}

use Place::{Number, Operand, Unused};
use Sort::{Boolean, Property, Sequence};

/// Every operator number there is.
pub const OPERATORS: [u8; 34] = [
    0, 1, 2, 3, 4, 5, 6, 16, 17, 18, 19, 20, 21, 22, 23, 24, 25, 26, 32, 33, 34, 35, 36, 37, 38,
    39, 40, 41, 42, 43, 44, 45, 46, 47,
];

/// Whether an operator is one of those that version 3 expands.
pub fn is_derived(operator: u8) -> bool {
    matches!(operator, 23..=26 | 41..=47)
}

/// Whether tables of a version may have an operator: 5 and 6 came with version
/// 2, the derived ones are version 3's alone.
pub fn known_in(version: u16, operator: u8) -> bool {
    match operator {
        5 | 6 => version >= 2,
        _ if is_derived(operator) => version == 3,
        _ => true,
    }
}

/// What x, y and the fourth byte of an operator hold, or none for an unknown
/// operator.
pub fn places(operator: u8) -> Option<[Place; 3]> {
    let [x, y] = operand_places(operator)?;
    let fourth = match operator {
        23 | 24 => Place::Bounds,
        25 | 26 => Number(15),
        _ => Unused,
    };
    Some([x, y, fourth])
}

/// What x and y of an operator hold.
fn operand_places(operator: u8) -> Option<[Place; 2]> {
    let places = match operator {
        0 => [Number(1), Unused],
        1 | 5 | 6 => [Number(63), Unused],
        2 => [Operand(Boolean), Unused],
        3 | 4 => [Operand(Boolean), Operand(Boolean)],
        16 | 25 | 26 => [Operand(Boolean), Unused],
        17..=19 | 24 => [Operand(Sequence), Operand(Sequence)],
        20 | 21 | 23 => [Operand(Sequence), Unused],
        22 => [Operand(Boolean), Operand(Sequence)],
        32 | 33 => [Operand(Sequence), Unused],
        34 | 38 | 44 | 45 | 47 => [Operand(Property), Unused],
        35 | 36 | 39 | 46 => [Operand(Property), Operand(Property)],
        37 | 41..=43 => [Operand(Sequence), Operand(Property)],
        40 => [Operand(Boolean), Operand(Property)],
        _ => return None,
    };
    Some(places)
}

impl Node {
    /// The node with this operator, x, y and fourth byte; none for an unknown
    /// operator.
    pub fn new(operator: u8, held: [usize; 3]) -> Option<Node> {
        let [x, y, _] = held;
        let node = match operator {
            0 => Node::Constant(x),
            1 => Node::Signal(x),
            2 => Node::Not(x),
            3 => Node::And(x, y),
            4 => Node::Or(x, y),
            5 => Node::Risen(x),
            6 => Node::Fallen(x),
            16 => Node::Letter(x),
            17 => Node::Then(x, y),
            18 => Node::Fuse(x, y),
            19 => Node::Either(x, y),
            20 => Node::Empty(x),
            21 => Node::Repeat(x),
            22 => Node::ClockSequence(x, y),
            32 => Node::Strong(x),
            33 => Node::Weak(x),
            34 => Node::NotProperty(x),
            35 => Node::OrProperty(x, y),
            36 => Node::AndProperty(x, y),
            37 => Node::Implies(x, y),
            38 => Node::Nexttime(x),
            39 => Node::Until(x, y),
            40 => Node::ClockProperty(x, y),
            _ => return Derived::new(operator, held).map(Node::Derived),
        };
        Some(node)
    }

    /// Operator, and then x, y and fourth byte of the node.
    pub fn parts(self) -> (u8, [usize; 3]) {
        let (operator, x, y) = match self {
            Node::Constant(x) => (0, x, 0),
            Node::Signal(x) => (1, x, 0),
            Node::Not(x) => (2, x, 0),
            Node::And(x, y) => (3, x, y),
            Node::Or(x, y) => (4, x, y),
            Node::Risen(x) => (5, x, 0),
            Node::Fallen(x) => (6, x, 0),
            Node::Letter(x) => (16, x, 0),
            Node::Then(x, y) => (17, x, y),
            Node::Fuse(x, y) => (18, x, y),
            Node::Either(x, y) => (19, x, y),
            Node::Empty(x) => (20, x, 0),
            Node::Repeat(x) => (21, x, 0),
            Node::ClockSequence(x, y) => (22, x, y),
            Node::Strong(x) => (32, x, 0),
            Node::Weak(x) => (33, x, 0),
            Node::NotProperty(x) => (34, x, 0),
            Node::OrProperty(x, y) => (35, x, y),
            Node::AndProperty(x, y) => (36, x, y),
            Node::Implies(x, y) => (37, x, y),
            Node::Nexttime(x) => (38, x, 0),
            Node::Until(x, y) => (39, x, y),
            Node::ClockProperty(x, y) => (40, x, y),
            Node::Derived(derived) => return derived.parts(),
        };
        (operator, [x, y, 0])
    }

    /// The sort of the node, fixed by its operator.
    pub fn sort(self) -> Sort {
        match self.parts().0 {
            0..=6 => Boolean,
            16..=26 => Sequence,
            _ => Property,
        }
    }

    /// The operands of the node in order; numbers and unused bytes are none.
    pub fn operands(self) -> impl Iterator<Item = usize> {
        let (operator, held) = self.parts();
        let places = places(operator).unwrap_or([Unused; 3]);
        places
            .into_iter()
            .zip(held)
            .filter(|(place, _)| matches!(place, Operand(_)))
            .map(|(_, operand)| operand)
    }

    /// The same node with each operand given its new number.
    pub fn renumbered(self, new_number: impl Fn(usize) -> usize) -> Node {
        let (operator, mut held) = self.parts();
        let places = places(operator).unwrap_or([Unused; 3]);
        for (place, held) in places.into_iter().zip(&mut held) {
            if matches!(place, Operand(_)) {
                *held = new_number(*held);
            }
        }
        Node::new(operator, held).unwrap_or(self)
    }
}

/// The clock of every node: the condition of the nearest clock node above it.
///
/// Operands are below their node, so going down from the root sees each node
/// before its operands.
pub fn clocks(table: &[Node]) -> Vec<Option<usize>> {
    let mut clocks = vec![None; table.len()];
    for (index, node) in table.iter().enumerate().rev() {
        let clock_below = match *node {
            Node::ClockSequence(c, _) | Node::ClockProperty(c, _) => Some(c),
            _ => clocks[index],
        };
        for operand in node.operands() {
            if table[operand].sort() != Boolean {
                clocks[operand] = clock_below;
            }
        }
    }
    clocks
}
