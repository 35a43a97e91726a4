//! Growing random tables that are accepted.

use crate::derived::{Bounds, Derived};
use crate::node::{Node, Sort};
use crate::random::Random;
use crate::table::{self, table_bytes, MOST_NODES};

/// How the two operands of a node share what is left to grow.
#[derive(Clone, Copy)]
pub enum Shape {
    Even,
    Left,
    Right,
    Mixed,
    /// Mostly nodes with one operand, one above the other.
    Chain,
    /// Evenly shared, and mostly or of sequences, so that much matches.
    Broad,
    /// Shared at random, mostly until, and strong and weak on the right of `|->`
    /// only, so that not every record tests it.
    Guarded,
}

/// What kind of table is wanted.
pub struct Plan {
    pub version: u16,
    pub root: Sort,
    /// Roughly how many sequence and property nodes.
    pub size: usize,
    pub signals: Vec<usize>,
    /// How many of a hundred nodes that name a signal ask whether it has risen
    /// or fallen: 0 in version 1.
    pub edges: usize,
    /// How many of a hundred nodes with operands are derived: 0 below version 3.
    pub derived: usize,
    /// How often clock nodes and `[*0]` come, against about 100 for all others.
    pub clocks: usize,
    pub empties: usize,
    /// Have all of a property under a clock.
    pub clocked: bool,
    pub shape: Shape,
    /// Mix the order of the nodes as far as the rules let it.
    pub mixed_order: bool,
    pub unused_booleans: usize,
    /// How many nodes a table comes to: what must not be too many.
    pub count: fn(&[Node]) -> usize,
}

/// A table being grown: every node is pushed after its operands.
pub struct Grower<'a> {
    pub random: &'a mut Random,
    plan: &'a Plan,
    nodes: Vec<Node>,
    booleans: Vec<usize>,
}

/// A table for the plan that is accepted and does not come to too many nodes.
/// Tables that come out too large are grown again with less.
pub fn grown(random: &mut Random, plan: &Plan) -> Vec<Node> {
    let mut size = plan.size;
    loop {
        let nodes = grown_once(random, plan, size);
        if nodes.len() <= MOST_NODES && (plan.count)(&nodes) <= MOST_NODES {
            return nodes;
        }
        size = size * 3 / 4;
    }
}

/// An accepted table for the plan, but perhaps with too many nodes.
pub fn grown_once(random: &mut Random, plan: &Plan, size: usize) -> Vec<Node> {
    let mut grower = Grower {
        random,
        plan,
        nodes: Vec::new(),
        booleans: Vec::new(),
    };
    let root = match plan.root {
        Sort::Property if plan.clocked => grower.clocked(size),
        Sort::Property => grower.property(size),
        _ => grower.sequence(size),
    };
    for _ in 0..plan.unused_booleans {
        grower.new_boolean(1);
    }
    let nodes = grower.nodes;
    let nodes = ordered(random, &nodes, root, plan.mixed_order);
    without_hollow(plan.version, nodes)
}

impl Grower<'_> {
    /// Adds a node and gives its index.
    pub fn push(&mut self, node: Node) -> usize {
        self.nodes.push(node);
        self.nodes.len() - 1
    }

    /// A boolean, often one that is there already.
    pub fn boolean(&mut self) -> usize {
        if !self.booleans.is_empty() && self.random.percent(45) {
            return self.random.pick(&self.booleans);
        }
        self.new_boolean(2)
    }

    /// A new boolean with so many levels of operators at most.
    fn new_boolean(&mut self, levels: usize) -> usize {
        let operator = match levels {
            0 => 0,
            _ => self.random.weighted(&[60, 8, 14, 9, 9]),
        };
        let node = match operator {
            0 => {
                let signal = self.random.pick(&self.plan.signals);
                signal_node(self.random, self.plan, signal)
            }
            1 => Node::Constant(self.random.below(2)),
            2 => Node::Not(self.new_boolean(levels - 1)),
            3 => Node::And(self.boolean(), self.new_boolean(levels - 1)),
            _ => Node::Or(self.new_boolean(levels - 1), self.boolean()),
        };
        let index = self.push(node);
        self.booleans.push(index);
        index
    }

    /// A sequence of about so many nodes.
    pub fn sequence(&mut self, size: usize) -> usize {
        if self.next_is_derived() {
            return self.derived_sequence(size);
        }
        if size <= 1 {
            let b = self.boolean();
            return self.push(Node::Letter(b));
        }
        let (first, second) = self.split(size - 1);
        let node = match self.sequence_operator() {
            0 => Node::Then(self.sequence(first), self.sequence(second)),
            1 => Node::Fuse(self.sequence(first), self.sequence(second)),
            2 => Node::Either(self.sequence(first), self.sequence(second)),
            3 => Node::Repeat(self.sequence(size - 1)),
            4 => Node::Empty(self.sequence(size.min(4) - 1)),
            _ => Node::ClockSequence(self.boolean(), self.sequence(size - 1)),
        };
        self.push(node)
    }

    /// Whether a derived node comes next. Nothing is drawn where none may come.
    fn next_is_derived(&mut self) -> bool {
        self.plan.derived > 0 && self.random.percent(self.plan.derived)
    }

    /// Which sequence operator comes next.
    fn sequence_operator(&mut self) -> usize {
        let (empties, clocks) = (self.plan.empties, self.plan.clocks);
        match self.plan.shape {
            Shape::Chain => self.random.weighted(&[5, 3, 3, 80, empties, clocks]),
            Shape::Broad => self.random.weighted(&[16, 6, 60, 25, empties, clocks]),
            _ => self.random.weighted(&[36, 14, 26, 24, empties, clocks]),
        }
    }

    /// A property of about so many nodes.
    pub fn property(&mut self, size: usize) -> usize {
        if self.next_is_derived() {
            return self.derived_property(size);
        }
        if size <= 2 {
            return self.leaf(1);
        }
        let (first, second) = self.split(size - 1);
        let node = match self.property_operator() {
            0 => return self.leaf(size - 1),
            1 => Node::NotProperty(self.property(size - 1)),
            2 => Node::OrProperty(self.property(first), self.property(second)),
            3 => Node::AndProperty(self.property(first), self.property(second)),
            4 => Node::Implies(self.sequence(first), self.property(second)),
            5 => Node::Nexttime(self.property(size - 1)),
            6 => Node::Until(self.property(first), self.property(second)),
            _ => return self.clocked(size - 1),
        };
        self.push(node)
    }

    /// `@(c) P` over a property of about so many nodes.
    fn clocked(&mut self, size: usize) -> usize {
        let (c, p) = (self.boolean(), self.property(size));
        self.push(Node::ClockProperty(c, p))
    }

    /// Which property operator comes next; 0 is strong or weak.
    fn property_operator(&mut self) -> usize {
        let clocks = self.plan.clocks;
        match self.plan.shape {
            Shape::Chain => self.random.weighted(&[5, 45, 2, 2, 3, 35, 3, clocks]),
            Shape::Guarded => self.random.weighted(&[10, 10, 5, 5, 10, 10, 50, clocks]),
            _ => self.random.weighted(&[24, 9, 11, 11, 19, 11, 15, clocks]),
        }
    }

    /// strong or weak over a sequence of about so many nodes; if guarded, on the
    /// right of a `|->`, at times with a not or a clock above it.
    fn leaf(&mut self, size: usize) -> usize {
        let p = self.promotion(size);
        if !matches!(self.plan.shape, Shape::Guarded) {
            return p;
        }
        let r = self.guard();
        let mut guarded = self.push(Node::Implies(r, p));
        if self.random.percent(40) {
            guarded = self.push(Node::NotProperty(guarded));
        }
        if self.random.percent(self.plan.clocks) {
            let c = self.boolean();
            guarded = self.push(Node::ClockProperty(c, guarded));
        }
        guarded
    }

    /// A short sequence for the left of a `|->`.
    fn guard(&mut self) -> usize {
        let size = self.random.pick(&[1, 1, 1, 3]);
        let r = self.sequence(size);
        match self.random.weighted(&[70, 15, self.plan.empties]) {
            0 => r,
            1 => self.later(r),
            _ => self.or_empty(r),
        }
    }

    /// `1[*1:$] ##1 R`: a match from any later letter.
    fn later(&mut self, r: usize) -> usize {
        let always = self.push(Node::Constant(1));
        let letter = self.push(Node::Letter(always));
        let waits = self.push(Node::Repeat(letter));
        self.push(Node::Then(waits, r))
    }

    /// `b[*0] or R`: an empty match, too.
    fn or_empty(&mut self, r: usize) -> usize {
        let letter = self.sequence(1);
        let empty = self.push(Node::Empty(letter));
        self.push(Node::Either(empty, r))
    }

    /// strong or weak over a sequence of about so many nodes.
    fn promotion(&mut self, size: usize) -> usize {
        let r = self.sequence(size);
        if self.random.percent(58) {
            self.push(Node::Strong(r))
        } else {
            self.push(Node::Weak(r))
        }
    }

    /// Shares out so many nodes between two operands, at least one each.
    pub fn split(&mut self, total: usize) -> (usize, usize) {
        let total = total.max(2);
        let first = match self.plan.shape {
            Shape::Even | Shape::Broad => total / 2,
            Shape::Left => total - self.random.between(1, 2.min(total - 1)),
            Shape::Right => self.random.between(1, 2.min(total - 1)),
            Shape::Mixed | Shape::Chain | Shape::Guarded => self.random.between(1, total - 1),
        };
        (first, total - first)
    }
}

/// A node that names a signal: the signal itself, or that it has risen or fallen.
fn signal_node(random: &mut Random, plan: &Plan, signal: usize) -> Node {
    if !random.percent(plan.edges) {
        return Node::Signal(signal);
    }
    random.pick(&[Node::Risen(signal), Node::Fallen(signal)])
}

/// The nodes in an order that has operands first and the root last: as they
/// are, or mixed.
fn ordered(random: &mut Random, nodes: &[Node], root: usize, mixed: bool) -> Vec<Node> {
    let mut left: Vec<usize> = (0..nodes.len()).filter(|&node| node != root).collect();
    let mut new_number = vec![None; nodes.len()];
    let mut order = Vec::new();
    while !left.is_empty() {
        let place = if mixed {
            let is_placed = |operand: usize| new_number[operand].is_some();
            let is_ready = |place: &usize| nodes[left[*place]].operands().all(is_placed);
            let ready: Vec<usize> = (0..left.len()).filter(is_ready).collect();
            random.pick(&ready)
        } else {
            0
        };
        let node = left.remove(place);
        new_number[node] = Some(order.len());
        order.push(node);
    }
    order.push(root);
    let renumber = |operand: usize| new_number[operand].unwrap_or(0);
    let renumbered = |&node: &usize| nodes[node].renumbered(renumber);
    order.iter().map(renumbered).collect()
}

/// Has sequences under strong, weak, `|->` and what expands to them match a
/// letter more, one after the other, until none of them is hollow.
fn without_hollow(version: u16, mut nodes: Vec<Node>) -> Vec<Node> {
    if nodes.len() > MOST_NODES {
        return nodes;
    }
    loop {
        let hollow = match table::checked(&table_bytes(version, &nodes), version) {
            Err(verdict) if verdict.number == 9 => verdict.node,
            _ => return nodes,
        };
        let below = sequences_below(&nodes, hollow).into_iter();
        let fuller = below.filter_map(|r| Some((r, not_empty(nodes[r])?))).next();
        match fuller {
            Some((r, node)) => nodes[r] = node,
            None => return nodes,
        }
    }
}

/// What an operator that only matches no letters becomes, to match some.
fn not_empty(node: Node) -> Option<Node> {
    match node {
        Node::Empty(r) => Some(Node::Repeat(r)),
        Node::Derived(Derived::Times(r, Bounds { n: 0, .. })) => {
            Some(Node::Derived(Derived::Times(r, Bounds { m: 0, n: 1 })))
        }
        Node::Derived(Derived::Goto(b, 0)) => Some(Node::Derived(Derived::Goto(b, 1))),
        _ => None,
    }
}

/// All sequence nodes below a node, highest first.
fn sequences_below(nodes: &[Node], top: usize) -> Vec<usize> {
    let mut reached = vec![false; nodes.len()];
    reached[top] = true;
    let mut found = Vec::new();
    for index in (0..=top).rev() {
        if reached[index] {
            for operand in nodes[index].operands() {
                reached[operand] |= nodes[operand].sort() == Sort::Sequence;
            }
            if index != top {
                found.push(index);
            }
        }
    }
    found
}

/// Adds nodes, each counting one, up to what the table is to come to.
pub fn filled(random: &mut Random, plan: &Plan, mut nodes: Vec<Node>, target: usize) -> Vec<Node> {
    let missing = target.saturating_sub((plan.count)(&nodes));
    for _ in 0..missing.min(MOST_NODES.saturating_sub(nodes.len())) {
        if random.percent(50) {
            let signal = random.below(64);
            nodes = with_boolean_in_front(&nodes, signal_node(random, plan, signal));
            continue;
        }
        let root = nodes.len() - 1;
        let wrapper = match nodes[root].sort() {
            Sort::Sequence => Node::Repeat(root),
            _ if random.percent(50) => Node::Nexttime(root),
            _ => Node::NotProperty(root),
        };
        nodes.push(wrapper);
    }
    nodes
}

/// The table with one more boolean, unused, before all others.
fn with_boolean_in_front(nodes: &[Node], boolean: Node) -> Vec<Node> {
    let moved = nodes.iter().map(|node| node.renumbered(|old| old + 1));
    std::iter::once(boolean).chain(moved).collect()
}
