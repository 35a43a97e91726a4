//! A `|=>` or `#=#` whose left side matched where the record ends, before its right side could be asked.
use super::implication_words::samples_words;
use super::reached::positions;

/// The matches of its left side after which the sample, or tick, that asks the right side is still to come.
#[derive(Clone, Copy, Debug, PartialEq, Eq)]
pub struct Awaiting {
    /// Bit i is set where sample i is the last of such a match; an empty one has no last sample.
    last: u64,
    /// Whether a tick is awaited.
    clocked: bool,
}

impl Awaiting {
    /// Of such matches, each by its start and its end; none where there are none.
    pub fn of(
        matches: impl IntoIterator<Item = (usize, usize)>,
        clocked: bool,
    ) -> Option<Awaiting> {
        let last = |(start, end): (usize, usize)| match end > start {
            true => 1 << (end - 1),
            false => 0,
        };
        let last = matches.into_iter().map(last);
        let last = last.reduce(|all, some| all | some)?;
        Some(Awaiting { last, clocked })
    }

    /// `its left side matched at sample 2, and the next sample, at which the right side is asked, is still to come`
    pub fn words(self) -> String {
        let last: Vec<usize> = positions(self.last).collect();
        let matched = match samples_words(&last) {
            Some(samples) => format!("at {samples}"),
            None => "without a sample".to_string(),
        };
        let next = match self.clocked {
            true => "tick",
            false => "sample",
        };
        format!("its left side matched {matched}, and the next {next}, at which the right side is asked, is still to come")
    }
}
