//! An assertion with its derived operators written out, and the parts that its nodes then stand for.
//!
//! The judge reads a table as its expansion, so that is where its rows belong. docs/BLOCKS.md has the nodes
//! that each operator is written out to; what is said of them is said of the part that was given.
use super::{Assertion, Operator, Sort};
use xistomar::Refusal;

/// An accepted table and its expansion. A table without derived operators may be in another order there.
#[derive(Clone, Debug)]
pub struct Expanded {
    given: Assertion,
    written: Assertion,
    /// For each node of the expansion the property node of the table that it stands for, if any.
    stands_for: Vec<Option<usize>>,
}

impl Expanded {
    /// Expands a table, or answers its refusal; 13 where the expansion has more than 120 nodes.
    pub fn of(table: &[u8]) -> Result<Expanded, Refusal> {
        let given = Assertion::of_table(table)?;
        let written = Assertion::of_table(&xistomar::expanded(table)?)?;
        let mut expanded = Expanded {
            stands_for: vec![None; written.nodes().len()],
            given,
            written,
        };
        expanded.pair(expanded.given.root(), expanded.written.root());
        Ok(expanded)
    }

    /// The assertion of the table.
    pub fn given(&self) -> &Assertion {
        &self.given
    }

    /// The assertion of the expansion.
    pub fn written(&self) -> &Assertion {
        &self.written
    }

    /// The property node of the table that a node of the expansion stands for; none inside a block.
    pub fn stands_for(&self, written: usize) -> Option<usize> {
        self.stands_for.get(written).copied().flatten()
    }

    /// The operator of that property node.
    pub fn operator(&self, written: usize) -> Option<Operator> {
        let given = self.stands_for(written)?;
        Some(self.given.node(given).operator)
    }

    /// The `|->` of the expansion to which a node there belongs that stands for `|->`, `|=>`, `#-#` or `#=#`.
    pub fn implication(&self, written: usize) -> Option<usize> {
        match self.operator(written)? {
            Operator::Implies | Operator::ImpliesNext => Some(written),
            Operator::Followed | Operator::FollowedNext => Some(self.x(written)),
            _ => None,
        }
    }

    /// The left side R of the `R ##1 1 |-> P` that a `|=>` or `#=#` is written out to.
    pub fn left(&self, implication: usize) -> usize {
        self.x(self.x(implication))
    }

    /// The P that a node of the expansion awaits which stands for `s_eventually P`.
    pub fn awaited(&self, written: usize) -> Option<usize> {
        let awaits = self.operator(written)? == Operator::Eventually;
        awaits.then(|| self.x(self.x(self.x(written))))
    }

    /// Each implication of the table in its order, with the `|->` that it is written out to: more than one
    /// where it is copied.
    pub fn implications(&self) -> Vec<(usize, Vec<usize>)> {
        let nodes = self.given.nodes().iter().enumerate();
        let implications = nodes.filter(|(_, node)| node.operator.is_implication());
        let written = |given: usize| {
            let nodes = 0..self.stands_for.len();
            let copies = nodes.filter(|node| self.stands_for(*node) == Some(given));
            copies.filter_map(|node| self.implication(node)).collect()
        };
        implications
            .map(|(given, _)| (given, written(given)))
            .collect()
    }

    /// Notes that a node of the expansion stands for one of the table, and so on with their operands.
    fn pair(&mut self, given: usize, written: usize) {
        if let Some(place) = self.stands_for.get_mut(written) {
            *place = Some(given);
        }
        let node = self.given.node(given);
        let [x, y] = [node.x, node.y].map(usize::from);
        for (operand, copy) in self.operands(node.operator, (x, y), written) {
            self.pair(operand, copy);
        }
    }

    /// The property operands of a node of the table, with the nodes that they are written out to where the
    /// node itself is written out to this one.
    fn operands(
        &self,
        operator: Operator,
        (x, y): (usize, usize),
        e: usize,
    ) -> Vec<(usize, usize)> {
        let not_not = |node| self.x(self.x(node));
        match operator {
            Operator::ImpliesNext => vec![(y, self.y(e))],
            Operator::Followed | Operator::FollowedNext => {
                vec![(y, self.x(self.y(self.x(e))))]
            }
            Operator::Always => vec![(x, self.x(e))],
            Operator::Eventually | Operator::StrongNexttime => vec![(x, self.x(not_not(e)))],
            Operator::StrongUntil => {
                let until = self.x(e);
                let again = self.x(not_not(self.y(e)));
                vec![(x, self.x(until)), (y, self.y(until)), (y, again)]
            }
            _ => self.base_operands(operator, (x, y), e),
        }
    }

    /// The same for an operator that is not derived.
    fn base_operands(
        &self,
        operator: Operator,
        (x, y): (usize, usize),
        e: usize,
    ) -> Vec<(usize, usize)> {
        let pairs = [(x, self.x(e)), (y, self.y(e))];
        let sorted = pairs.into_iter().zip(operator.operands());
        let properties = sorted.filter(|(_, sort)| **sort == Sort::Property);
        properties.map(|(pair, _)| pair).collect()
    }

    fn x(&self, written: usize) -> usize {
        usize::from(self.written.node(written).x)
    }

    fn y(&self, written: usize) -> usize {
        usize::from(self.written.node(written).y)
    }
}
