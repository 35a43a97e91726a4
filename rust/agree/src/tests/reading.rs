//! What was tested, read off the rows that the judge left, with a slip in one clause.

/// A clause of docs/FORMAT.md (Tested) that is read wrong.
#[derive(Clone, Copy, PartialEq, Eq)]
pub enum Slip {
    /// None is.
    Nowhere,
    /// As before the request: a match of some `|->` from any start, or no `|->` at all.
    AnyStart,
    /// An empty match of a `|->` counts.
    EmptyMatch,
    /// A match of a `|->` is enough, whether or not its right side is tested.
    MatchAlone,
    /// The right side of a `|->` is asked after the last letter of the match.
    AfterTheMatch,
    /// nexttime is asked on the empty word as on any other.
    EmptyWord,
    /// nexttime under a clock is tested as with none.
    NextSample,
    /// until goes on where its left side fails.
    LeftFails,
    /// until goes on where its right side holds.
    RightHolds,
    /// The positions of until under a clock are all samples.
    EverySample,
    /// Holding is read with a ⊤ tail.
    Weakly,
    /// Holding is read with a ⊥ tail.
    Strongly,
}

const LETTER: usize = 16;
const CLOCK_SEQUENCE: usize = 22;
const STRONG: usize = 32;
const WEAK: usize = 33;
const NOT: usize = 34;
const OR: usize = 35;
const AND: usize = 36;
const IMPLIES: usize = 37;
const NEXTTIME: usize = 38;
const UNTIL: usize = 39;
const CLOCK_PROPERTY: usize = 40;

/// An accepted table with the rows that the judge left of its rewriting.
pub struct Reading<'a> {
    /// Operator, x and y of each node.
    nodes: Vec<[usize; 3]>,
    clocks: Vec<Option<usize>>,
    /// The rewritten node that stands for each node.
    stands: Vec<usize>,
    samples: usize,
    words: &'a [u64],
    slip: Slip,
    /// For each node so far, whether each suffix tests it.
    tested: Vec<Vec<bool>>,
}

impl Reading<'_> {
    /// Whether the record tests the table.
    pub fn tested(table: &[u8], samples: usize, words: &[u64], slip: Slip) -> bool {
        let node = |node: &[u8]| [node[0], node[1], node[2]].map(usize::from);
        let nodes: Vec<[usize; 3]> = table[6..].chunks(4).map(node).collect();
        let clocks = clocks(&nodes);
        let reading = Reading {
            stands: stands(&nodes, &clocks),
            nodes,
            clocks,
            samples,
            words,
            slip,
            tested: Vec::new(),
        };
        match slip {
            Slip::AnyStart => reading.some_match(),
            _ => reading.root_tested(),
        }
    }

    /// Whether the whole record tests the root, found from the lowest node upwards.
    fn root_tested(mut self) -> bool {
        for node in 0..self.nodes.len() {
            let suffixes = (0..=self.samples).map(|i| self.tested_from(node, i));
            let suffixes = suffixes.collect();
            self.tested.push(suffixes);
        }
        self.tested.last().is_some_and(|root| root[0])
    }

    /// Whether some `|->`, if there is one, has a match that is not empty.
    fn some_match(&self) -> bool {
        let implications = self.nodes.iter().filter(|node| node[0] == IMPLIES);
        let left_sides: Vec<usize> = implications.map(|node| node[1]).collect();
        let matched = |&r: &usize| (0..self.samples).any(|i| self.word(r, i) >> i > 1);
        left_sides.is_empty() || left_sides.iter().any(matched)
    }

    /// Whether the suffix from i on tests a node.
    fn tested_from(&self, node: usize, i: usize) -> bool {
        let [operator, x, y] = self.nodes[node];
        match operator {
            STRONG | WEAK => true,
            NOT => self.tested[x][i],
            OR | AND => self.tested[x][i] || self.tested[y][i],
            IMPLIES => self.implies(x, y, i),
            NEXTTIME => self
                .next(self.clocks[node], i)
                .is_some_and(|next| self.tested[x][next]),
            UNTIL => self.until(x, y, self.clocks[node], i),
            CLOCK_PROPERTY => self.tested[y][i],
            _ => false,
        }
    }

    /// A match that is not empty, with the right side tested from its last letter; an empty one
    /// would have it tested from where it stands.
    fn implies(&self, r: usize, p: usize, i: usize) -> bool {
        let first = match self.slip {
            Slip::EmptyMatch => i,
            _ => i + 1,
        };
        let tested = |end: usize| match self.slip {
            Slip::MatchAlone => true,
            Slip::AfterTheMatch => self.tested[p][end],
            _ => self.tested[p][end.saturating_sub(1).max(i)],
        };
        let ends = self.word(r, i);
        (first..=self.samples).any(|end| has(ends, end) && tested(end))
    }

    /// Where nexttime asks its operand: one sample on, or at the second tick.
    fn next(&self, clock: Option<usize>, i: usize) -> Option<usize> {
        match clock {
            Some(_) if self.slip != Slip::NextSample => self.positions(clock, i).nth(1),
            _ if self.slip == Slip::EmptyWord => Some(self.samples.min(i + 1)),
            _ => (i < self.samples).then_some(i + 1),
        }
    }

    /// A position that tests either side, where each one before has the left side and not the right.
    fn until(&self, p: usize, q: usize, clock: Option<usize>, i: usize) -> bool {
        let clock = clock.filter(|_| self.slip != Slip::EverySample);
        let tested = |at: usize| self.tested[p][at] || self.tested[q][at];
        let stops = |at: usize| {
            let left_fails = self.slip != Slip::LeftFails && !self.holds(p, at);
            left_fails || self.slip != Slip::RightHolds && self.holds(q, at)
        };
        let mut positions = self.positions(clock, i);
        let asked = positions.find(|&at| tested(at) || stops(at));
        asked.is_some_and(tested)
    }

    /// The samples from i on, under a clock its ticks.
    fn positions(&self, clock: Option<usize>, i: usize) -> impl Iterator<Item = usize> + '_ {
        let ticks = clock.map_or(u64::MAX, |c| self.word(c, 0));
        (i..self.samples).filter(move |&at| has(ticks, at))
    }

    /// Whether the suffix from a position on satisfies a property.
    fn holds(&self, p: usize, at: usize) -> bool {
        let tail = match self.slip {
            Slip::Weakly => 1,
            Slip::Strongly => 2,
            _ => 0,
        };
        has(self.word(p, tail), at)
    }

    /// A word of the rewritten node that stands for a node.
    fn word(&self, node: usize, word: usize) -> u64 {
        self.words[65 * self.stands[node] + word]
    }
}

/// Whether a mask has a position.
fn has(mask: u64, position: usize) -> bool {
    mask >> position & 1 == 1
}

/// The condition of the nearest clock node above each sequence and property.
fn clocks(nodes: &[[usize; 3]]) -> Vec<Option<usize>> {
    let mut clocks = vec![None; nodes.len()];
    for (index, &[operator, x, y]) in nodes.iter().enumerate().rev() {
        if operator == CLOCK_SEQUENCE || operator == CLOCK_PROPERTY {
            clocks[y] = Some(x);
        } else if operator > LETTER {
            (clocks[x], clocks[y]) = (clocks[index], clocks[index]);
        }
    }
    clocks
}

/// The rewritten node that stands for each node: booleans come first, then a block a node, whose
/// last node stands for it.
fn stands(nodes: &[[usize; 3]], clocks: &[Option<usize>]) -> Vec<usize> {
    let is_boolean = |node: &&[usize; 3]| node[0] < LETTER;
    let mut written = nodes.iter().filter(is_boolean).count();
    let mut booleans = 0..written;
    let mut stands: Vec<usize> = Vec::new();
    for (&[operator, _, y], clock) in nodes.iter().zip(clocks) {
        if operator < LETTER {
            stands.extend(booleans.next());
            continue;
        }
        written += match operator {
            CLOCK_SEQUENCE | CLOCK_PROPERTY => 0,
            LETTER | UNTIL if clock.is_some() => 9,
            NEXTTIME if clock.is_some() => 14,
            _ => 1,
        };
        stands.push(match operator {
            CLOCK_SEQUENCE | CLOCK_PROPERTY => stands[y],
            _ => written - 1,
        });
    }
    stands
}
