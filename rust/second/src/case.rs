//! A case is one call of an entry point; its answer is all that came of it.

use crate::answers::{self, Expansion, Judgement, MatchEnds, Reading, Rewriting};
use crate::verdict::Verdict;

/// One call, with what is lent to it.
#[derive(Clone, Debug, PartialEq, Eq)]
pub enum Case {
    Check {
        table: Vec<u8>,
    },
    Read {
        record: Vec<u8>,
        words: usize,
    },
    Expand {
        table: Vec<u8>,
        bytes: usize,
    },
    Rewrite {
        table: Vec<u8>,
        bytes: usize,
    },
    Judge {
        table: Vec<u8>,
        samples: Vec<u64>,
        words: usize,
    },
    /// The plain judge, to which nothing is lent.
    Plain {
        table: Vec<u8>,
        samples: Vec<u64>,
    },
    Ends {
        table: Vec<u8>,
        samples: Vec<u64>,
        start: usize,
        words: usize,
    },
    Program {
        input: Vec<u8>,
    },
}

/// What was answered, with all that was lent as it stood afterwards.
#[derive(Clone, Debug, PartialEq, Eq)]
pub enum Answer {
    Check(Verdict),
    Read(Reading, Vec<u64>),
    Expand(Expansion, Vec<u8>),
    Rewrite(Rewriting, Vec<u8>),
    Judge(Judgement, Vec<u64>),
    Plain(Judgement),
    Ends(MatchEnds, Vec<u64>),
    Program(String),
}

impl Answer {
    /// The verdict of the answer; none for the program's line.
    pub fn verdict(&self) -> Option<Verdict> {
        match self {
            Answer::Check(verdict) => Some(*verdict),
            Answer::Read(reading, _) => Some(reading.verdict),
            Answer::Expand(expansion, _) => Some(expansion.verdict),
            Answer::Rewrite(rewriting, _) => Some(rewriting.verdict),
            Answer::Judge(judgement, _) | Answer::Plain(judgement) => Some(judgement.verdict),
            Answer::Ends(ends, _) => Some(ends.verdict),
            Answer::Program(_) => None,
        }
    }
}

/// The words lent for reading a record: every one 7.
pub fn lent_samples(words: usize) -> Vec<u64> {
    vec![7; words]
}

/// The bytes lent for expanding and for rewriting: byte i is 128 + i % 127.
pub fn lent_bytes(bytes: usize) -> Vec<u8> {
    (0..bytes).map(|i| 128 + (i % 127) as u8).collect()
}

/// The words lent as a workspace: word i is 0xE700000000000000 + i.
pub fn lent_workspace(words: usize) -> Vec<u64> {
    (0..words as u64)
        .map(|i| 0xE700_0000_0000_0000 + i)
        .collect()
}

/// The answer of this program to a case.
pub fn answer(case: &Case) -> Answer {
    match case {
        Case::Check { table } => Answer::Check(answers::check(table)),
        Case::Read { record, words } => {
            let mut lent = lent_samples(*words);
            Answer::Read(answers::read(record, &mut lent), lent)
        }
        Case::Expand { table, bytes } => {
            let mut lent = lent_bytes(*bytes);
            Answer::Expand(answers::expand(table, &mut lent), lent)
        }
        Case::Rewrite { table, bytes } => {
            let mut lent = lent_bytes(*bytes);
            Answer::Rewrite(answers::rewrite(table, &mut lent), lent)
        }
        Case::Judge {
            table,
            samples,
            words,
        } => {
            let mut lent = lent_workspace(*words);
            Answer::Judge(answers::judge(table, samples, &mut lent), lent)
        }
        Case::Plain { table, samples } => Answer::Plain(answers::plain_judge(table, samples)),
        Case::Ends {
            table,
            samples,
            start,
            words,
        } => {
            let mut lent = lent_workspace(*words);
            let ends = answers::match_ends(table, samples, *start, &mut lent);
            Answer::Ends(ends, lent)
        }
        Case::Program { input } => Answer::Program(answers::line(input)),
    }
}
