//! Which versions of a table each call takes.

/// A call that is given a table.
#[derive(Clone, Copy, Debug, PartialEq, Eq)]
pub enum Call {
    Check,
    Expand,
    Rewrite,
    Judge,
    Plain,
    Ends,
    Program,
}

/// The newest version that there is.
pub const NEWEST: u16 = 3;

impl Call {
    /// The newest version that the call takes: it takes 1 and all up to this.
    pub fn newest(self) -> u16 {
        match self {
            Call::Check | Call::Expand | Call::Rewrite | Call::Judge => 3,
            Call::Plain | Call::Ends | Call::Program => 3,
        }
    }
}
