//! Growing the derived nodes of version 3.

use crate::derived::{Bounds, Derived};
use crate::grow::Grower;
use crate::node::Node;

impl Grower<'_> {
    /// A derived sequence over about so many nodes, less one.
    pub fn derived_sequence(&mut self, size: usize) -> usize {
        let size = size.max(2) - 1;
        let derived = match self.random.weighted(&[30, 30, 20, 20]) {
            0 => Derived::Times(self.sequence(size), self.bounds()),
            1 => {
                let (first, second) = self.split(size);
                Derived::Delay(self.sequence(first), self.sequence(second), self.bounds())
            }
            2 => Derived::Goto(self.boolean(), self.bounds().n),
            _ => Derived::Nonconsecutive(self.boolean(), self.bounds().n),
        };
        self.push(Node::Derived(derived))
    }

    /// A derived property over about so many nodes, less one.
    pub fn derived_property(&mut self, size: usize) -> usize {
        let size = size.max(2) - 1;
        let (first, second) = self.split(size);
        let derived = match self.random.below(7) {
            0 => Derived::ImpliesNext(self.sequence(first), self.property(second)),
            1 => Derived::Followed(self.sequence(first), self.property(second)),
            2 => Derived::FollowedNext(self.sequence(first), self.property(second)),
            3 => Derived::Always(self.property(size)),
            4 => Derived::Eventually(self.property(size)),
            5 => Derived::StrongUntil(self.property(first), self.property(second)),
            _ => Derived::StrongNexttime(self.property(size)),
        };
        self.push(Node::Derived(derived))
    }

    /// Bounds that are mostly small, so that much fits.
    fn bounds(&mut self) -> Bounds {
        let n = match self.random.weighted(&[60, 30, 10]) {
            0 => self.random.between(0, 2),
            1 => self.random.between(1, 5),
            _ => self.random.between(0, 15),
        };
        let m = match self.random.percent(40) {
            true => n,
            false => self.random.between(0, n),
        };
        Bounds { m, n }
    }
}
