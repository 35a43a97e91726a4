//! A property's levels from every sample on, read off the rows that the judge leaves.
use xistomar::{Judge, Level, Refusal, LONGEST, SHARE, TABLE_BYTES};

/// The three answers for every suffix of the samples: bit i is the answer from sample i on.
///
/// The samples from one on are never judged as a record of their own: what has risen or fallen at the
/// first of them goes by the sample before it, which such a record would not have.
#[derive(Clone, Copy, Debug, Default, PartialEq, Eq)]
pub struct Suffixes {
    neutral: u64,
    weak: u64,
    strong: u64,
}

impl Suffixes {
    /// Judges the samples once. The root's row is that of the last rewritten node, for which a judge
    /// always has room, and its first three words are the answers.
    pub fn of(judge: &mut Judge, table: &[u8], samples: &[u64]) -> Result<Suffixes, Refusal> {
        judge.judge(table, samples)?;
        let rewritten = xistomar::rewrite(table, &mut [0; TABLE_BYTES])?;
        let mut rows = judge.workspace().chunks_exact(SHARE);
        let root = rewritten.checked_sub(1).and_then(|root| rows.nth(root));
        Ok(match root {
            Some([neutral, weak, strong, ..]) => Suffixes {
                neutral: *neutral,
                weak: *weak,
                strong: *strong,
            },
            _ => Suffixes::default(),
        })
    }

    /// The level from a sample on; from the number of samples on it is that of what is left, the tail.
    pub fn level(self, from: usize) -> Level {
        let has = |answers: u64| from <= LONGEST && answers >> from & 1 == 1;
        match (has(self.strong), has(self.neutral), has(self.weak)) {
            (true, ..) => Level::Strong,
            (_, true, _) => Level::Neutral,
            (_, _, true) => Level::Weak,
            _ => Level::Broken,
        }
    }
}
