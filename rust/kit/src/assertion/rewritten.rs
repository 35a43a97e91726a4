//! Where each node stands in the table with its clocks rewritten away.
use super::{is_clock, Assertion, Operator, Sort};

impl Assertion {
    /// For each node the number of the rewritten node that stands for it. First come all booleans in
    /// their order, and then a block for each other node in order, whose last node stands for it. A clock
    /// node has no block: its operand stands for it.
    pub fn rewritten(&self) -> Vec<usize> {
        let boolean = |operator: Operator| operator.sort() == Sort::Boolean;
        let booleans = self.nodes.iter().filter(|node| boolean(node.operator));
        let (mut before, mut count) = (0, booleans.count());
        let mut places: Vec<usize> = Vec::with_capacity(self.nodes.len());
        for (index, node) in self.nodes.iter().enumerate() {
            let place = if boolean(node.operator) {
                before += 1;
                before - 1
            } else if is_clock(node.operator) {
                let operand = places.get(usize::from(node.y));
                operand.copied().unwrap_or_default()
            } else {
                count += self.block(index);
                count - 1
            };
            places.push(place);
        }
        places
    }

    /// The nodes of the block of a sequence or property node that is no clock, as docs/FORMAT.md (Rewriting clocks away) lists them.
    fn block(&self, index: usize) -> usize {
        match (self.node(index).operator, self.clock(index)) {
            (Operator::Letter | Operator::Until, Some(_)) => 9,
            (Operator::Nexttime, Some(_)) => 14,
            _ => 1,
        }
    }
}
