//! Copying the nodes of an assertion into a new one.
use super::{is_clock, Assertion, Builder, Operator};
use std::collections::HashMap;

/// A new assertion that is being made of the nodes of another.
pub(super) struct Copying<'a> {
    assertion: &'a Assertion,
    /// The property nodes that get `always (..)` around them.
    always: &'a [usize],
    builder: Builder,
    copied: HashMap<usize, usize>,
}

impl<'a> Copying<'a> {
    /// Nothing copied yet; nodes are copied as they are.
    pub fn of(assertion: &'a Assertion) -> Copying<'a> {
        Copying::asking_always(assertion, &[])
    }

    /// Nothing copied yet; these property nodes will be asked at every sample.
    pub fn asking_always(assertion: &'a Assertion, always: &'a [usize]) -> Copying<'a> {
        Copying {
            assertion,
            always,
            builder: Builder::new(),
            copied: HashMap::new(),
        }
    }

    /// Copies a node and all below it, and answers the new index; none where the nodes are too many.
    /// Of a clock node the operand comes before the condition. A boolean that is shared is copied once,
    /// since unfolded it could be of any size.
    pub fn copy(&mut self, index: usize) -> Option<usize> {
        if let Some(copy) = self.copied.get(&index) {
            return Some(*copy);
        }
        let node = self.assertion.node(index);
        let [mut x, mut y] = [node.x, node.y].map(usize::from);
        let (first, second) = match node.operator.operands() {
            [] => (None, None),
            [_] => (Some(&mut x), None),
            _ if is_clock(node.operator) => (Some(&mut y), Some(&mut x)),
            _ => (Some(&mut x), Some(&mut y)),
        };
        for operand in [first, second].into_iter().flatten() {
            *operand = self.copy(*operand)?;
        }
        let counted = self.builder.add_counted(node.operator, x, y, node.fourth);
        let mut copy = counted?;
        if self.always.contains(&index) {
            copy = self.add(Operator::Always, copy, 0)?;
        }
        self.copied.insert(index, copy);
        Some(copy)
    }

    /// Adds a node over nodes that were copied or added before.
    pub fn add(&mut self, operator: Operator, x: usize, y: usize) -> Option<usize> {
        self.builder.add(operator, x, y)
    }

    /// The new assertion, whose root is the node added last.
    pub fn finish(self) -> Assertion {
        self.builder.finish()
    }
}
