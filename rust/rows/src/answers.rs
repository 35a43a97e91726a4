//! What the entry points answer. A refusal has level 0, is not tested, and has an empty mask and count 0.

/// The number of the refusal and its node; both 0 where nothing is refused.
#[derive(Clone, Copy, Debug, Default, PartialEq, Eq)]
pub struct Verdict {
    pub number: u8,
    pub node: usize,
}

/// The level, 0 to 3, and whether the assertion was tested.
#[derive(Clone, Copy, Debug, Default, PartialEq, Eq)]
pub struct Judgement {
    pub verdict: Verdict,
    pub level: u8,
    pub tested: bool,
}

/// The ends of the matches from the start, and whether the samples from there on, followed by one or more ⊤, match.
#[derive(Clone, Copy, Debug, Default, PartialEq, Eq)]
pub struct MatchEnds {
    pub verdict: Verdict,
    pub mask: u64,
    pub top: bool,
}

/// How many nodes the expanded table has.
#[derive(Clone, Copy, Debug, Default, PartialEq, Eq)]
pub struct Expansion {
    pub verdict: Verdict,
    pub count: usize,
}

/// How many nodes the rewritten table has.
#[derive(Clone, Copy, Debug, Default, PartialEq, Eq)]
pub struct Rewriting {
    pub verdict: Verdict,
    pub count: usize,
}

impl Verdict {
    /// A refusal that names no node.
    pub(crate) const fn refusal(number: u8) -> Self {
        Self { number, node: 0 }
    }

    /// A refusal at a node.
    pub(crate) const fn at(number: u8, node: usize) -> Self {
        Self { number, node }
    }
}
