//! The same calls with memory of their own.
use crate::{Judgement, MatchEnds, Refusal, LONGEST, TABLE_BYTES, WORKSPACE};
use std::fmt;

/// Reads a record into a new vector. Refusals 1, 2, 3, 10, 5, as of [`crate::read`].
pub fn samples(record: &[u8]) -> Result<Vec<u64>, Refusal> {
    let mut out = [0; LONGEST];
    let count = crate::read(record, &mut out)?;
    Ok(out[..count].to_vec())
}

/// Expands a table into a new vector, so that every call takes it. Refusals 1 to 9, 13, as of
/// [`crate::expand`].
///
/// ```
/// use xistomar::{expanded, plain_judge};
///
/// // a |=> strong(b)
/// let mut table = b"SVT\x03\x00\x06".to_vec();
/// table.extend([1, 0, 0, 0, 1, 1, 0, 0]);
/// table.extend([16, 0, 0, 0, 16, 1, 0, 0]);
/// table.extend([32, 3, 0, 0, 41, 2, 4, 0]);
///
/// let judgement = plain_judge(&expanded(&table)?, &[1, 2])?;
/// assert_eq!(judgement.to_string(), "level 3 tested yes");
/// # Ok::<(), xistomar::Refusal>(())
/// ```
pub fn expanded(table: &[u8]) -> Result<Vec<u8>, Refusal> {
    let mut out = [0; TABLE_BYTES];
    let count = crate::expand(table, &mut out)?;
    Ok(out[..6 + 4 * count].to_vec())
}

/// A judge with a workspace that is large enough for every table, so that refusal 11 is never given.
#[derive(Clone)]
pub struct Judge {
    workspace: Box<[u64]>,
}

impl Judge {
    /// A judge with a cleared workspace of [`WORKSPACE`] words.
    pub fn new() -> Judge {
        Judge {
            workspace: vec![0; WORKSPACE].into_boxed_slice(),
        }
    }

    /// Judges the property at the table's root on the samples, as [`crate::judge`] does.
    pub fn judge(&mut self, table: &[u8], samples: &[u64]) -> Result<Judgement, Refusal> {
        crate::judge(table, samples, &mut self.workspace)
    }

    /// The match ends of the sequence at the table's root, as [`crate::match_ends`] gives them.
    pub fn match_ends(
        &mut self,
        table: &[u8],
        samples: &[u64],
        start: usize,
    ) -> Result<MatchEnds, Refusal> {
        crate::match_ends(table, samples, start, &mut self.workspace)
    }

    /// The workspace, with the rows of the last accepted call. Words after those rows are as earlier
    /// calls left them.
    pub fn workspace(&self) -> &[u64] {
        &self.workspace
    }
}

impl Default for Judge {
    fn default() -> Judge {
        Judge::new()
    }
}

impl fmt::Debug for Judge {
    fn fmt(&self, f: &mut fmt::Formatter<'_>) -> fmt::Result {
        f.debug_struct("Judge").finish_non_exhaustive()
    }
}
