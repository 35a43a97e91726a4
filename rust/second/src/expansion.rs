//! Expanding the derived operators of version 3 by the definitions of source 000.

use crate::derived::{Bounds, Derived};
use crate::node::{Node, Sort};

/// The expansion of a table: first the booleans, its own and those that blocks
/// make, in the order of the nodes, then the root with all below it, operands
/// before their node. None if it has more nodes than `most`.
pub fn expanded(table: &[Node], most: usize) -> Option<Vec<Node>> {
    let mut writer = Writer {
        table,
        booleans: vec![0; table.len()],
        out: Vec::new(),
        most,
    };
    writer.write_booleans()?;
    writer.write(table.len().checked_sub(1)?)?;
    Some(writer.out)
}

/// An expansion being written.
struct Writer<'a> {
    table: &'a [Node],
    /// The new number of a boolean, or of the boolean that a node's block makes.
    booleans: Vec<usize>,
    out: Vec<Node>,
    most: usize,
}

/// What a repeat goes round.
#[derive(Clone, Copy)]
enum Part {
    /// A node of the table with all below it.
    Node(usize),
    /// One letter satisfying a boolean.
    Letter(usize),
    /// `!b[*0:$] ##1 b`, by the new numbers of b and of not b.
    Group { b: usize, not_b: usize },
}

impl Writer<'_> {
    /// Adds a node and gives its number, if there is room for it. Every write
    /// adds one, so that the largest nesting soon has no room left.
    fn push(&mut self, node: Node) -> Option<usize> {
        if self.out.len() == self.most {
            return None;
        }
        self.out.push(node);
        Some(self.out.len() - 1)
    }

    /// Each boolean of the table, and the one that the block of a node makes.
    fn write_booleans(&mut self) -> Option<()> {
        for (index, node) in self.table.iter().enumerate() {
            let boolean = match *node {
                Node::Derived(derived) => self.made_boolean(derived),
                _ if node.sort() != Sort::Boolean => None,
                _ => Some(node.renumbered(|operand| self.booleans[operand])),
            };
            if let Some(boolean) = boolean {
                self.booleans[index] = self.push(boolean)?;
            }
        }
        Some(())
    }

    /// The one boolean that a block makes, if it makes any.
    fn made_boolean(&self, derived: Derived) -> Option<Node> {
        match derived {
            Derived::Delay(_, _, Bounds { n: 0, .. }) => None,
            Derived::Delay(..) | Derived::ImpliesNext(..) | Derived::FollowedNext(..) => {
                Some(Node::Constant(1))
            }
            Derived::Goto(b, _) | Derived::Nonconsecutive(b, _) => {
                Some(Node::Not(self.booleans[b]))
            }
            Derived::Always(_) | Derived::Eventually(_) | Derived::StrongUntil(..) => {
                Some(Node::Constant(0))
            }
            Derived::Times(..) | Derived::Followed(..) | Derived::StrongNexttime(_) => None,
        }
    }

    /// Writes a node of the table with all below it, and gives its number.
    fn write(&mut self, index: usize) -> Option<usize> {
        let node = self.table[index];
        if node.sort() == Sort::Boolean {
            return Some(self.booleans[index]);
        }
        if let Node::Derived(derived) = node {
            return self.derived(derived, self.booleans[index]);
        }
        let mut numbers = Vec::new();
        for operand in node.operands() {
            numbers.push((operand, self.write(operand)?));
        }
        let new_number = |old: usize| {
            let found = numbers.iter().find(|(operand, _)| *operand == old);
            found.map_or(0, |&(_, number)| number)
        };
        self.push(node.renumbered(new_number))
    }

    /// Writes the block of a derived node; `made` is the boolean that it makes.
    fn derived(&mut self, derived: Derived, made: usize) -> Option<usize> {
        match derived {
            Derived::Times(r, bounds) => self.bounded(Part::Node(r), bounds),
            Derived::Delay(r, s, bounds) => self.delay(r, s, bounds, made),
            Derived::Goto(b, m) => self.goto(b, made, m),
            Derived::Nonconsecutive(b, m) => {
                let goto = self.goto(b, made, m)?;
                let waits = self.any_number_of(made)?;
                self.push(Node::Then(goto, waits))
            }
            Derived::ImpliesNext(r, p) => {
                let r = self.one_later(r, made)?;
                let p = self.write(p)?;
                self.push(Node::Implies(r, p))
            }
            Derived::Followed(r, p) => {
                let r = self.write(r)?;
                self.followed(r, p)
            }
            Derived::FollowedNext(r, p) => {
                let r = self.one_later(r, made)?;
                self.followed(r, p)
            }
            Derived::Always(p) => {
                let p = self.write(p)?;
                self.always(p, made)
            }
            Derived::Eventually(p) => self.eventually(p, made),
            Derived::StrongUntil(p, q) => self.strong_until(p, q, made),
            Derived::StrongNexttime(p) => {
                let not_p = self.not(p)?;
                let next = self.push(Node::Nexttime(not_p))?;
                self.push(Node::NotProperty(next))
            }
        }
    }

    /// `R[*m:n]`: `R[*m]` where m is n, else `R[*m:n-1] or R[*n]`.
    fn bounded(&mut self, part: Part, Bounds { m, n }: Bounds) -> Option<usize> {
        if m == n {
            return self.times(part, m);
        }
        let fewer = self.bounded(part, Bounds { m, n: n - 1 })?;
        let most = self.times(part, n)?;
        self.push(Node::Either(fewer, most))
    }

    /// `R[*k]`: the base's `R[*0]`, else `R[*k-1] ##1 R`.
    fn times(&mut self, part: Part, k: usize) -> Option<usize> {
        if k == 0 {
            let r = self.part(part)?;
            return self.push(Node::Empty(r));
        }
        let before = self.times(part, k - 1)?;
        let r = self.part(part)?;
        self.push(Node::Then(before, r))
    }

    /// Writes what a repeat goes round, once more.
    fn part(&mut self, part: Part) -> Option<usize> {
        match part {
            Part::Node(r) => self.write(r),
            Part::Letter(b) => self.push(Node::Letter(b)),
            Part::Group { b, not_b } => {
                let waits = self.any_number_of(not_b)?;
                let letter = self.push(Node::Letter(b))?;
                self.push(Node::Then(waits, letter))
            }
        }
    }

    /// `b[*0:$]`, which is `b[*0] or b[*1:$]`.
    fn any_number_of(&mut self, b: usize) -> Option<usize> {
        let letter = self.push(Node::Letter(b))?;
        let none = self.push(Node::Empty(letter))?;
        let letter = self.push(Node::Letter(b))?;
        let some = self.push(Node::Repeat(letter))?;
        self.push(Node::Either(none, some))
    }

    /// `R ##[m:n] S`: for 0 alone `R ##0 S`, from 0 on that or `R ##[1:n] S`,
    /// else `R ##1 1[*m-1:n-1] ##1 S`.
    fn delay(&mut self, r: usize, s: usize, bounds: Bounds, one: usize) -> Option<usize> {
        let Bounds { m, n } = bounds;
        if n == 0 {
            let (r, s) = (self.write(r)?, self.write(s)?);
            return self.push(Node::Fuse(r, s));
        }
        if m == 0 {
            let at_once = self.delay(r, s, Bounds { m, n: 0 }, one)?;
            let later = self.delay(r, s, Bounds { m: 1, n }, one)?;
            return self.push(Node::Either(at_once, later));
        }
        let r = self.write(r)?;
        let (m, n) = (m - 1, n - 1);
        let gap = self.bounded(Part::Letter(one), Bounds { m, n })?;
        let waited = self.push(Node::Then(r, gap))?;
        let s = self.write(s)?;
        self.push(Node::Then(waited, s))
    }

    /// `b[->m]`: `(!b[*0:$] ##1 b)[*m]`.
    fn goto(&mut self, b: usize, not_b: usize, m: usize) -> Option<usize> {
        let b = self.booleans[b];
        self.times(Part::Group { b, not_b }, m)
    }

    /// `R ##1 1`.
    fn one_later(&mut self, r: usize, one: usize) -> Option<usize> {
        let r = self.write(r)?;
        let letter = self.push(Node::Letter(one))?;
        self.push(Node::Then(r, letter))
    }

    /// `not (R |-> not P)`, with R written already.
    fn followed(&mut self, r: usize, p: usize) -> Option<usize> {
        let not_p = self.not(p)?;
        let implies = self.push(Node::Implies(r, not_p))?;
        self.push(Node::NotProperty(implies))
    }

    /// `not P`.
    fn not(&mut self, p: usize) -> Option<usize> {
        let p = self.write(p)?;
        self.push(Node::NotProperty(p))
    }

    /// `P until weak(0)`, with P written already.
    fn always(&mut self, p: usize, zero: usize) -> Option<usize> {
        let letter = self.push(Node::Letter(zero))?;
        let never = self.push(Node::Weak(letter))?;
        self.push(Node::Until(p, never))
    }

    /// `not (always (not P))`.
    fn eventually(&mut self, p: usize, zero: usize) -> Option<usize> {
        let not_p = self.not(p)?;
        let always = self.always(not_p, zero)?;
        self.push(Node::NotProperty(always))
    }

    /// `(P until Q) and s_eventually Q`.
    fn strong_until(&mut self, p: usize, q: usize, zero: usize) -> Option<usize> {
        let (left, right) = (self.write(p)?, self.write(q)?);
        let until = self.push(Node::Until(left, right))?;
        let eventually = self.eventually(q, zero)?;
        self.push(Node::AndProperty(until, eventually))
    }
}
