//! What the judge says of the parts of an assertion, each question asked once.
use super::satisfied;
use super::suffixes::Suffixes;
use crate::assertion::Assertion;
use std::collections::hash_map::Entry;
use std::collections::HashMap;
use xistomar::{Judge, Level, MatchEnds, Refusal};

/// The parts of an assertion, asked from one of the samples on.
pub(super) struct Asked<'a> {
    assertion: &'a Assertion,
    samples: &'a [u64],
    /// The samples after which a part that is closed no longer counts.
    earlier: usize,
    judge: Judge,
    tables: HashMap<usize, Vec<u8>>,
    /// By the node of a part and the number of samples on which it was judged.
    levels: HashMap<(usize, usize), Suffixes>,
    ticks: HashMap<usize, Vec<bool>>,
}

impl<'a> Asked<'a> {
    /// Nothing asked yet.
    pub fn new(assertion: &'a Assertion, samples: &'a [u64], earlier: usize) -> Asked<'a> {
        Asked {
            assertion,
            samples,
            earlier,
            judge: Judge::new(),
            tables: HashMap::new(),
            levels: HashMap::new(),
            ticks: HashMap::new(),
        }
    }

    /// How many samples there are.
    pub fn count(&self) -> usize {
        self.samples.len()
    }

    /// The level of a property node's part from a sample on.
    pub fn level(&mut self, node: usize, from: usize) -> Result<Level, Refusal> {
        self.level_before(node, from, self.count())
    }

    /// Whether a part had this level, 3 or 0, by the time after which it no longer counts. Without a
    /// sample every part is open.
    pub fn settled(&mut self, node: usize, from: usize, level: Level) -> Result<bool, Refusal> {
        if from >= self.earlier {
            return Ok(false);
        }
        Ok(self.level_before(node, from, self.earlier)? == level)
    }

    fn level_before(&mut self, node: usize, from: usize, end: usize) -> Result<Level, Refusal> {
        if let Some(levels) = self.levels.get(&(node, end)) {
            return Ok(levels.level(from));
        }
        let samples = self.samples.get(..end).unwrap_or(self.samples);
        let table = table(&mut self.tables, self.assertion, node);
        let levels = Suffixes::of(&mut self.judge, table, samples)?;
        self.levels.insert((node, end), levels);
        Ok(levels.level(from))
    }

    /// The matches of a sequence node's part from a sample on.
    pub fn matches(&mut self, node: usize, from: usize) -> Result<MatchEnds, Refusal> {
        let table = table(&mut self.tables, self.assertion, node);
        self.judge.match_ends(table, self.samples, from)
    }

    /// The samples from one on at which a property node looks: its clock's ticks, or all.
    pub fn positions(&mut self, node: usize, from: usize) -> Result<Vec<usize>, Refusal> {
        let all = from..self.count();
        let Some(clock) = self.assertion.clock(node) else {
            return Ok(all.collect());
        };
        let ticking = match self.ticks.entry(clock) {
            Entry::Occupied(known) => known.into_mut(),
            Entry::Vacant(new) => new.insert(satisfied(self.assertion, clock, self.samples)?),
        };
        Ok(all.filter(|at| ticking.get(*at) == Some(&true)).collect())
    }
}

/// The table of a node's part, made when it is first asked for.
fn table<'t>(
    tables: &'t mut HashMap<usize, Vec<u8>>,
    assertion: &Assertion,
    node: usize,
) -> &'t [u8] {
    let made = || assertion.part(node).table();
    tables.entry(node).or_insert_with(made)
}
