//! The verdict every entry point gives: accepted, or a refusal with its node.

/// Number and node of a refusal; both are 0 for an acceptance.
#[derive(Clone, Copy, Debug, PartialEq, Eq)]
pub struct Verdict {
    pub number: u8,
    pub node: usize,
}

impl Verdict {
    /// The verdict of everything that is not refused.
    pub const ACCEPTED: Verdict = Verdict { number: 0, node: 0 };

    /// A refusal that names node 0.
    pub fn refused(number: u8) -> Verdict {
        Verdict { number, node: 0 }
    }

    /// A refusal that names a node.
    pub fn refused_at(number: u8, node: usize) -> Verdict {
        Verdict { number, node }
    }

    /// True when nothing was refused.
    pub fn accepted(self) -> bool {
        self.number == 0
    }
}

/// Refuses with the number when the fault is there.
pub fn refuse_if(fault: bool, number: u8) -> Result<(), Verdict> {
    if fault {
        Err(Verdict::refused(number))
    } else {
        Ok(())
    }
}
