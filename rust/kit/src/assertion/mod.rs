//! An assertion as the nodes of an accepted table, and its parts as tables of their own.
mod build;
mod copying;
mod expanded;
mod operators;
mod rewritten;

pub use build::{Builder, MOST_NODES};
use copying::Copying;
pub use expanded::Expanded;
pub use operators::{Operator, Sort};
use xistomar::Refusal;

/// A node of a table: its operator, its operands, and what it counts. Bytes that are not used are 0.
#[derive(Clone, Copy, Debug, PartialEq, Eq, Hash)]
pub struct Node {
    /// The operator.
    pub operator: Operator,
    /// The constant, the signal's number, or the first operand's index.
    pub x: u8,
    /// The second operand's index.
    pub y: u8,
    /// The fourth byte: m + 16n of `[*m:n]` and `##[m:n]`, m of `[->m]` and `[=m]`.
    pub fourth: u8,
}

impl Node {
    /// The indexes of its operand nodes, in order.
    pub fn operands(self) -> impl DoubleEndedIterator<Item = usize> {
        let [x, y] = [self.x, self.y].map(usize::from);
        let count = self.operator.operands().len();
        [x, y].into_iter().take(count)
    }

    /// m and n of `[*m:n]` and `##[m:n]`.
    pub fn bounds(self) -> (u8, u8) {
        (self.fourth % 16, self.fourth / 16)
    }
}

/// The nodes of an accepted table. The root is the last.
#[derive(Clone, Debug, PartialEq, Eq)]
pub struct Assertion {
    nodes: Vec<Node>,
}

impl Assertion {
    /// The nodes of a table that the proved check accepts, or its refusal.
    pub fn of_table(table: &[u8]) -> Result<Assertion, Refusal> {
        xistomar::check(table)?;
        let nodes = nodes_of(table);
        Ok(Assertion { nodes })
    }

    /// The nodes of a table to which none of refusals 1 to 8 applies. One that is refused with 9 has
    /// parts that can be written all the same.
    pub fn of_readable(table: &[u8]) -> Result<Assertion, Refusal> {
        match xistomar::check(table) {
            Err(refusal) if refusal.number() != 9 => Err(refusal),
            _ => Ok(Assertion {
                nodes: nodes_of(table),
            }),
        }
    }

    /// The lowest version of tables that has all its operators: 1, 2 where a signal rises or falls, 3
    /// where an operator is derived.
    pub fn version(&self) -> u16 {
        let versions = self.nodes.iter().map(|node| node.operator.since());
        versions.max().unwrap_or(1)
    }

    /// The table: 6 + 4 bytes a node. Its version is the lowest, which the most benches can read.
    pub fn table(&self) -> Vec<u8> {
        let [low, high] = self.version().to_le_bytes();
        let mut table = vec![b'S', b'V', b'T', low, high, self.nodes.len() as u8];
        for node in &self.nodes {
            table.extend([node.operator as u8, node.x, node.y, node.fourth]);
        }
        table
    }

    /// The nodes in their order.
    pub fn nodes(&self) -> &[Node] {
        &self.nodes
    }

    /// The index of the root.
    pub fn root(&self) -> usize {
        self.nodes.len().saturating_sub(1)
    }

    /// The node at an index. An index is one of [`Assertion::nodes`], the root's, or an operand's.
    pub fn node(&self, index: usize) -> Node {
        self.nodes.get(index).copied().unwrap_or(Node {
            operator: Operator::Constant,
            x: 0,
            y: 0,
            fourth: 0,
        })
    }

    /// The condition of the nearest clock node above a sequence or property node, if any.
    pub fn clock(&self, index: usize) -> Option<usize> {
        let mut below = index;
        for (above, node) in self.nodes.iter().enumerate().skip(index + 1) {
            let stands = node.operands().any(|operand| operand == below);
            if stands {
                if is_clock(node.operator) {
                    return Some(usize::from(node.x));
                }
                below = above;
            }
        }
        None
    }

    /// The conditions of the clock nodes, each once, in the order of the table.
    pub fn clocks(&self) -> Vec<usize> {
        let mut found = Vec::new();
        for node in self.nodes.iter().filter(|node| is_clock(node.operator)) {
            let condition = usize::from(node.x);
            if !found.contains(&condition) {
                found.push(condition);
            }
        }
        found
    }

    /// The signals that the assertion asks about, in ascending order.
    pub fn signals(&self) -> Vec<u8> {
        let tidy = self.tidy();
        let signals = tidy.nodes.iter();
        let signals = signals.filter(|node| node.operator.asks_signal());
        let mut signals: Vec<u8> = signals.map(|node| node.x).collect();
        signals.sort_unstable();
        signals.dedup();
        signals
    }

    /// The same assertion in the kit's order: each boolean once and before the rest, then every node
    /// after its operands. Booleans that nothing uses are gone.
    pub fn tidy(&self) -> Assertion {
        self.part_under(self.root(), None)
    }

    /// A sequence or property node with all below it, under its clock, as an assertion of its own.
    pub fn part(&self, index: usize) -> Assertion {
        self.part_under(index, self.clock(index))
    }

    /// `strong(b)` of a boolean node without a clock: level 3 from each sample that satisfies it.
    pub fn letter(&self, boolean: usize) -> Assertion {
        let mut copying = Copying::of(self);
        let boolean = copying.copy(boolean);
        let letter = boolean.and_then(|b| copying.add(Operator::Letter, b, 0));
        let strong = letter.and_then(|letter| copying.add(Operator::Strong, letter, 0));
        self.built(copying, strong)
    }

    /// The same assertion in the kit's order, with `always (..)` around some of its property nodes; none
    /// where that has more than [`MOST_NODES`] nodes.
    pub fn asked_always(&self, nodes: &[usize]) -> Option<Assertion> {
        let mut copying = Copying::asking_always(self, nodes);
        copying.copy(self.root())?;
        Some(copying.finish())
    }

    fn part_under(&self, index: usize, clock: Option<usize>) -> Assertion {
        let mut copying = Copying::of(self);
        let mut root = copying.copy(index);
        if let (Some(condition), Some(part)) = (clock, root) {
            let operator = match self.node(index).operator.sort() {
                Sort::Property => Operator::ClockedProperty,
                _ => Operator::ClockedSequence,
            };
            let condition = copying.copy(condition);
            root = condition.and_then(|condition| copying.add(operator, condition, part));
        }
        self.built(copying, root)
    }

    /// What was built. A part has no more nodes than the whole, so it is always there.
    fn built(&self, copying: Copying, root: Option<usize>) -> Assertion {
        match root {
            Some(_) => copying.finish(),
            None => self.clone(),
        }
    }
}

/// The nodes of any table's bytes, up to the first whose operator is unknown.
fn nodes_of(table: &[u8]) -> Vec<Node> {
    let bytes = table.get(6..).unwrap_or_default();
    let node = |bytes: &[u8]| match *bytes {
        [operator, x, y, fourth] => Operator::of(operator).map(|operator| Node {
            operator,
            x,
            y,
            fourth,
        }),
        _ => None,
    };
    bytes.chunks_exact(4).map_while(node).collect()
}

/// Whether a node with this operator is `@(c)`.
pub fn is_clock(operator: Operator) -> bool {
    matches!(
        operator,
        Operator::ClockedSequence | Operator::ClockedProperty
    )
}

#[cfg(test)]
mod tests;
