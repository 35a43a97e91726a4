//! The statuses of the kit, and why a command ends without an answer.

/// Done; a level that was required is reached.
pub const DONE: u8 = 0;
/// The level that was required is not reached.
pub const BELOW: u8 = 1;
/// The command line is wrong.
pub const USAGE: u8 = 2;
/// A table or a record is refused, with a number of docs/FORMAT.md (Refusals).
pub const REFUSED: u8 = 3;
/// A file cannot be read, written or understood.
pub const FAILED: u8 = 4;
/// The two engines differ, which is a defect of Xistomar.
pub const DIFFER: u8 = 5;

/// Why a command ends without an answer, in words for standard error.
#[derive(Debug)]
pub enum Failure {
    /// The command line is wrong: status [`USAGE`].
    Usage(String),
    /// A table or a record is refused: status [`REFUSED`].
    Refused(String),
    /// A file cannot be read, written or understood: status [`FAILED`].
    Failed(String),
    /// The two engines differ: status [`DIFFER`].
    Differ(String),
    /// Nobody reads the answer any more: status [`FAILED`], without a word.
    Unheard,
}

impl Failure {
    /// The status that the command ends with.
    pub fn status(&self) -> u8 {
        match self {
            Failure::Usage(_) => USAGE,
            Failure::Refused(_) => REFUSED,
            Failure::Failed(_) | Failure::Unheard => FAILED,
            Failure::Differ(_) => DIFFER,
        }
    }

    /// What went wrong.
    pub fn words(&self) -> &str {
        match self {
            Failure::Usage(words) | Failure::Refused(words) => words,
            Failure::Failed(words) | Failure::Differ(words) => words,
            Failure::Unheard => "",
        }
    }
}

/// A command's status, or why it has no answer.
pub type Outcome = Result<u8, Failure>;
