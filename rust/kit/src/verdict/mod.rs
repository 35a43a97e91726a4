//! The verdict on a record, sample by sample, from the proved judge.
mod account;
mod asked;
mod awaiting;
mod decisive;
mod implication_words;
mod implications;
mod object;
mod part_words;
mod reached;
mod rows;
mod suffixes;
#[cfg(test)]
mod tests;
mod unexplained;
mod words;

pub use account::{account, Account};
pub use implication_words::implication_words;
pub use implications::Implication;
pub use object::{object, refusal_object};
pub use part_words::part_words;
pub use reached::Reaching;
pub use suffixes::Suffixes;
pub use unexplained::unexplained_words;
pub use words::{refusal_words, words};

use crate::assertion::Assertion;
use crate::engine::{Difference, Engine, Engines, Unjudged};
use crate::refusals;
use xistomar::{Judge, Judgement, Level, Refusal};

/// What the judge says of a record and of each of its beginnings.
#[derive(Clone, Debug, PartialEq, Eq)]
pub struct Verdict {
    /// The judgement on the whole record.
    pub judgement: Judgement,
    /// The level after 0, 1, .. samples, up to all of them.
    pub levels: Vec<Level>,
}

impl Verdict {
    /// How many samples the record has.
    pub fn samples(&self) -> usize {
        self.levels.len().saturating_sub(1)
    }

    /// The sample at which the level closed: 3 or 0, which a longer record never overturns. Before any
    /// sample every property has level 1 or 2.
    pub fn closed(&self) -> Option<usize> {
        let mut after = self.levels.iter().skip(1);
        after.position(|level| matches!(level, Level::Strong | Level::Broken))
    }
}

/// Judges a table on the samples and on each beginning of them, each by all of the engines.
pub fn verdict(engines: &mut Engines, table: &[u8], samples: &[u64]) -> Result<Verdict, Unjudged> {
    let judgement = engines.judge(table, samples)?;
    let beginnings = (0..=samples.len()).filter_map(|count| samples.get(..count));
    let levels = beginnings
        .map(|beginning| Ok(engines.judge(table, beginning)?.level))
        .collect::<Result<_, Unjudged>>()?;
    Ok(Verdict { judgement, levels })
}

/// Which of the samples satisfy a boolean node, asked of the judge in one call.
pub fn satisfied(
    assertion: &Assertion,
    boolean: usize,
    samples: &[u64],
) -> Result<Vec<bool>, Refusal> {
    let table = assertion.letter(boolean).table();
    let strong = Suffixes::of(&mut Judge::new(), &table, samples)?;
    let holds = |sample| strong.level(sample) == Level::Strong;
    Ok((0..samples.len()).map(holds).collect())
}

/// What is known of a record that was judged when it is held against what the caller requires.
#[derive(Clone, Copy, Debug, PartialEq, Eq)]
pub struct Judged {
    /// The judge's answer.
    pub judgement: Judgement,
    /// Whether every `|->` was asked; none where the plain engine judged alone, which cannot tell.
    pub asked: Option<bool>,
    /// Whether the assertion and the record are known to mean the same signals.
    pub named: bool,
}

/// A refusal, and the file that it is of.
#[derive(Clone, Copy, Debug, PartialEq, Eq)]
pub enum Refused {
    /// The table is refused.
    Table(Refusal),
    /// The record is refused.
    Record(Refusal),
}

impl Refused {
    /// `table` or `record`.
    pub fn file(self) -> &'static str {
        match self {
            Refused::Table(_) => "table",
            Refused::Record(_) => "record",
        }
    }

    /// The refusal.
    pub fn refusal(self) -> Refusal {
        match self {
            Refused::Table(refusal) | Refused::Record(refusal) => refusal,
        }
    }

    /// The program's line.
    pub fn line(self) -> String {
        refusals::line(self.refusal())
    }
}

/// Why a record is not judged by a table.
#[derive(Clone, Copy, Debug, PartialEq, Eq)]
pub enum Stopped {
    /// One of the files is refused.
    Refused(Refused),
    /// The engines differ.
    Differ(Difference),
}

impl Stopped {
    /// The same where a refusal can only be the table's.
    pub fn by_table(unjudged: Unjudged) -> Stopped {
        match unjudged {
            Unjudged::Refused(refusal) => Stopped::Refused(Refused::Table(refusal)),
            Unjudged::Differ(difference) => Stopped::Differ(difference),
        }
    }
}

/// The engines for a table, and the samples of a record that they are to judge. The table's refusals,
/// with 12 and 13, come before the record's.
pub fn ready(engine: Engine, table: &[u8], record: &[u8]) -> Result<(Engines, Vec<u64>), Stopped> {
    let engines = Engines::of(engine, table).map_err(Stopped::by_table)?;
    let refused = |refusal| Stopped::Refused(Refused::Record(refusal));
    Ok((engines, xistomar::samples(record).map_err(refused)?))
}
