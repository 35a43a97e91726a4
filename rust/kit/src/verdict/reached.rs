//! Where a record reaches the parts of an assertion.
//!
//! A part is *reached* at a sample where the record is asked about it. The root is reached at sample 0,
//! and each property node passes on where it is reached. n is the number of samples; a part may be reached
//! at n, the end of the record, where no sample is. That a property holds is its answer with no tail,
//! level 2 or 3.
//!
//! | node that is reached at i | what it reaches |
//! |---|---|
//! | `not P`, `P and Q`, `P or Q`, `@(c) P` | each operand at i |
//! | `R \|-> P` | P at the last sample of each match of R from i that is not empty |
//! | `nexttime P` | P at i + 1, if i is below n; under a clock, P at the second tick from i on, if there is one |
//! | `P until Q` | P and Q at each sample from i on, up to the first where P does not hold or Q does; under a clock, samples are ticks |
//!
//! Derived operators are written out first, so that these rules are enough. By docs/FORMAT.md (Tested) a record tests
//! the assertion exactly where it reaches some `strong` or `weak`. That answer is the judge's; the tests
//! hold it against what is reached here.
//!
//! Ticks, matches and whether a part holds are read off the rows that judging the whole assertion leaves,
//! so that a record is judged once.
use super::awaiting::Awaiting;
use super::Judged;
use crate::assertion::{Assertion, Expanded, Operator, MOST_NODES};
use crate::engine::{Engines, Unjudged};
use xistomar::{Judge, Refusal, SHARE};

/// A table with what is needed to tell where records reach the parts of its assertion, made once for all
/// of them.
#[derive(Clone, Debug)]
pub struct Reaching {
    table: Vec<u8>,
    expanded: Expanded,
    /// For each node of the expansion the number of its row.
    rows: Vec<usize>,
    /// For each node of the expansion the condition of its clock, if any.
    clocks: Vec<Option<usize>>,
    implications: Vec<Asking>,
}

/// A `|->`, `|=>`, `#-#` or `#=#` of an assertion.
#[derive(Clone, Debug)]
pub struct Asking {
    /// Its node in the table.
    pub node: usize,
    /// The `|->` of the expansion that stand for it.
    written: Vec<usize>,
    /// Their right sides.
    right: Vec<usize>,
}

impl Reaching {
    /// Prepares a table that the proved expander accepts, or answers its refusal.
    pub fn of(table: &[u8]) -> Result<Reaching, Refusal> {
        let expanded = Expanded::of(table)?;
        let written = expanded.written();
        let clocks = (0..=written.root()).map(|node| written.clock(node));
        let right = |implication: &usize| usize::from(written.node(*implication).y);
        let asking = |(node, written): (usize, Vec<usize>)| Asking {
            node,
            right: written.iter().map(right).collect(),
            written,
        };
        let implications = expanded.implications().into_iter().map(asking);
        Ok(Reaching {
            table: table.to_vec(),
            rows: written.rewritten(),
            clocks: clocks.collect(),
            implications: implications.collect(),
            expanded,
        })
    }

    /// The assertion of the table.
    pub fn assertion(&self) -> &Assertion {
        self.expanded.given()
    }

    /// Each `|->`, `|=>`, `#-#` and `#=#`, in the order of the table.
    pub fn implications(&self) -> &[Asking] {
        &self.implications
    }

    /// Judges a record, and answers where it reaches the parts.
    pub fn reached(&self, judge: &mut Judge, samples: &[u64]) -> Result<Reached, Refusal> {
        judge.judge(&self.table, samples)?;
        Ok(self.read_off(judge.workspace(), samples.len()))
    }

    /// Judges a record, and answers whether it asked every `|->`, as far as the engines tell.
    pub fn judged(&self, engines: &mut Engines, samples: &[u64]) -> Result<Judged, Unjudged> {
        let judgement = engines.judge(&self.table, samples)?;
        let asked = match self.implications.is_empty() {
            true => Some(true),
            false => engines.rows().map(|rows| self.asked(rows, samples.len())),
        };
        Ok(Judged {
            judgement,
            asked,
            named: false,
        })
    }

    /// Whether a record asked every `|->`: whether its right side was reached.
    fn asked(&self, rows: &[u64], samples: usize) -> bool {
        let reached = self.read_off(rows, samples);
        let mut implications = self.implications.iter();
        implications.all(|asking| reached.union(&asking.right) != 0)
    }

    /// What a `|=>` or `#=#` still awaits, by the rows that the judge left of so many samples.
    pub fn awaiting(
        &self,
        asking: &Asking,
        reached: &Reached,
        (workspace, samples): (&[u64], usize),
    ) -> Option<Awaiting> {
        if !self.assertion().node(asking.node).operator.asks_later() {
            return None;
        }
        let walk = Walk {
            reaching: self,
            workspace,
            samples,
            reached: reached.0,
        };
        let written = asking.written.iter();
        let clocked = self.assertion().clock(asking.node).is_some();
        Awaiting::of(written.flat_map(|node| walk.unasked(*node)), clocked)
    }

    /// Where parts are reached, by the rows that the judge left.
    fn read_off(&self, workspace: &[u64], samples: usize) -> Reached {
        let mut walk = Walk {
            reaching: self,
            workspace,
            samples,
            reached: [0; MOST_NODES],
        };
        let root = self.expanded.written().root();
        walk.reach(root, 1);
        // an operand stands below its node, so nothing is reached any more once it passes on
        for index in (0..=root).rev() {
            walk.pass_on(index);
        }
        Reached(walk.reached)
    }
}

/// Where the property nodes of an expansion are reached.
#[derive(Clone, Debug)]
pub struct Reached([u64; MOST_NODES]);

impl Reached {
    /// Bit i is set where a node of the expansion is reached at sample i.
    pub fn set(&self, node: usize) -> u64 {
        self.0.get(node).copied().unwrap_or_default()
    }

    /// The same for any of some nodes.
    fn union(&self, nodes: &[usize]) -> u64 {
        nodes.iter().fold(0, |all, node| all | self.set(*node))
    }

    /// The samples at which an implication is reached, and the number of samples where that is at the end.
    pub fn reached(&self, asking: &Asking) -> Vec<usize> {
        positions(self.union(&asking.written)).collect()
    }

    /// The samples at which its right side is asked.
    pub fn asked(&self, asking: &Asking) -> Vec<usize> {
        positions(self.union(&asking.right)).collect()
    }
}

/// The numbers of the bits that are set, from the lowest.
pub(super) fn positions(mut set: u64) -> impl Iterator<Item = usize> {
    std::iter::from_fn(move || {
        let rest = set.checked_sub(1)?;
        let lowest = set.trailing_zeros();
        set &= rest;
        Some(lowest as usize)
    })
}

struct Walk<'a> {
    reaching: &'a Reaching,
    workspace: &'a [u64],
    samples: usize,
    reached: [u64; MOST_NODES],
}

impl Walk<'_> {
    /// Adds positions at which a node is reached.
    fn reach(&mut self, node: usize, positions: u64) {
        if let Some(reached) = self.reached.get_mut(node) {
            *reached |= positions;
        }
    }

    /// Reaches the operands of a property node.
    fn pass_on(&mut self, index: usize) {
        let from = self.reached.get(index).copied().unwrap_or_default();
        if from == 0 {
            return;
        }
        let node = self.reaching.expanded.written().node(index);
        let (x, y) = (usize::from(node.x), usize::from(node.y));
        match node.operator {
            Operator::PropertyNot => self.reach(x, from),
            Operator::ClockedProperty => self.reach(y, from),
            Operator::PropertyAnd | Operator::PropertyOr => {
                self.reach(x, from);
                self.reach(y, from);
            }
            Operator::Implies => self.reach(y, self.last_samples(x, from)),
            Operator::Nexttime => self.reach(x, self.next(index, from)),
            Operator::Until => {
                let reached = self.until(index, (x, y), from);
                self.reach(x, reached);
                self.reach(y, reached);
            }
            _ => {}
        }
    }

    /// The last samples of the matches of a sequence, from any of these positions, that are not empty.
    fn last_samples(&self, sequence: usize, from: u64) -> u64 {
        let row = self.row(sequence);
        // an end is the sample after the last one, and that of an empty match is its start
        let last = |start: usize| {
            let ends = row.get(start).copied().unwrap_or_default();
            ends >> 1 & u64::MAX << start
        };
        positions(from).map(last).fold(0, |all, some| all | some)
    }

    /// The matches of the left side of a `|=>`, from where it is reached, that have no sample after them at
    /// which it looks; each by its start and its end.
    fn unasked(&self, implication: usize) -> Vec<(usize, usize)> {
        let row = self.row(self.reaching.expanded.left(implication));
        let seen = u64::BITS - self.looked_at(implication).leading_zeros();
        let from = self.reached.get(implication).copied().unwrap_or_default();
        let ends = |start: usize| row.get(start).copied().unwrap_or_default() & u64::MAX << seen;
        let matches = |start| positions(ends(start)).map(move |end| (start, end));
        positions(from).flat_map(matches).collect()
    }

    fn next(&self, node: usize, from: u64) -> u64 {
        let looked_at = self.looked_at(node);
        if self.clock(node).is_none() {
            return (from & looked_at) << 1;
        }
        let second = |start: usize| {
            let ticks = looked_at & u64::MAX << start;
            let later = ticks & ticks.wrapping_sub(1);
            later & later.wrapping_neg()
        };
        positions(from).map(second).fold(0, |all, some| all | some)
    }

    fn until(&self, node: usize, (p, q): (usize, usize), from: u64) -> u64 {
        let looked_at = self.looked_at(node);
        let goes_on = self.first_word(p) & !self.first_word(q);
        let (mut found, mut going) = (0, false);
        for sample in (0..self.samples).map(|sample| 1 << sample) {
            going |= from & sample != 0;
            if going && looked_at & sample != 0 {
                found |= sample;
                going = goes_on & sample != 0;
            }
        }
        found
    }

    /// The samples at which a node looks: its clock's ticks, or all.
    fn looked_at(&self, node: usize) -> u64 {
        match self.clock(node) {
            Some(condition) => self.first_word(condition),
            None => !(u64::MAX << self.samples),
        }
    }

    fn clock(&self, node: usize) -> Option<usize> {
        self.reaching.clocks.get(node).copied().flatten()
    }

    /// The samples that satisfy a boolean node, or from which on a property node holds.
    fn first_word(&self, node: usize) -> u64 {
        self.row(node).first().copied().unwrap_or_default()
    }

    /// The row of the rewritten node that stands for a node.
    fn row(&self, node: usize) -> &[u64] {
        let row = self.reaching.rows.get(node).copied().unwrap_or_default();
        let words = self.workspace.get(row * SHARE..).unwrap_or_default();
        words.get(..SHARE).unwrap_or_default()
    }
}
