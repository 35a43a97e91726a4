//! A difference between the engines, which is a defect.
use super::Answer;
use crate::failure::Failure;
use crate::files::shown;
use crate::refusals;
use crate::words;
use std::path::Path;

/// The engines' answers, which differ, and the number of samples on which they do: a record's first ones, or all.
#[derive(Clone, Copy, Debug, PartialEq, Eq)]
pub struct Difference {
    /// What the fast engine answers.
    pub fast: Answer,
    /// What the plain engine answers.
    pub plain: Answer,
    /// How many samples they were given.
    pub samples: usize,
}

impl Difference {
    /// The failure, for a table and a record, or for a table alone.
    pub fn failure(&self, files: &[&Path]) -> Failure {
        let files: Vec<String> = files.iter().map(|path| shown(path)).collect();
        let files = words::list(&files);
        Failure::Differ(format!("{files}: {}", self.words()))
    }

    /// Both answers, and on how many samples.
    pub fn line(&self) -> String {
        let said = |answer: Answer| match answer {
            Ok(judgement) => judgement.to_string(),
            Err(refusal) => refusals::line(refusal),
        };
        let (fast, plain) = (said(self.fast), said(self.plain));
        let samples = words::count(self.samples, "sample");
        format!(
            "the two engines differ on the first {samples}: the fast one answers '{fast}', the plain one '{plain}'"
        )
    }

    /// The same, and what to do.
    pub fn words(&self) -> String {
        let line = self.line();
        format!(
            "{line}.\n\
             That is a defect of Xistomar, and neither answer is to be trusted: please report it, with the table and \
             the record"
        )
    }
}
