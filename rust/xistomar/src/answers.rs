//! What the judges and match ends answer when they accept.
use crate::{raw, refusal, Refusal, LONGEST};
use std::fmt;

/// The level at which an assertion holds on a record. A higher level says more.
#[derive(Clone, Copy, Debug, PartialEq, Eq, PartialOrd, Ord, Hash)]
pub enum Level {
    /// Level 0: broken, whatever comes next.
    Broken = 0,
    /// Level 1: nothing broken, still waiting.
    Weak = 1,
    /// Level 2: held as the record stands; what comes next may break it.
    Neutral = 2,
    /// Level 3: held, whatever comes next.
    Strong = 3,
}

impl Level {
    /// The level's number, 0 to 3.
    pub const fn number(self) -> u8 {
        self as u8
    }

    /// What the level says of the assertion on the record, in one line.
    pub const fn meaning(self) -> &'static str {
        match self {
            Level::Broken => "broken, whatever comes next",
            Level::Weak => "nothing broken, still waiting",
            Level::Neutral => "held as the record stands; what comes next may break it",
            Level::Strong => "held, whatever comes next",
        }
    }

    /// The level that the library answered by its number.
    pub(crate) fn of(number: u8) -> Level {
        match number {
            0 => Level::Broken,
            1 => Level::Weak,
            2 => Level::Neutral,
            3 => Level::Strong,
            _ => unreachable!("the library is proved to answer no other level"),
        }
    }
}

/// The level's name: `broken`, `weak`, `neutral` or `strong`.
impl fmt::Display for Level {
    fn fmt(&self, f: &mut fmt::Formatter<'_>) -> fmt::Result {
        f.pad(match self {
            Level::Broken => "broken",
            Level::Weak => "weak",
            Level::Neutral => "neutral",
            Level::Strong => "strong",
        })
    }
}

/// What the judge says of an assertion on a record.
#[derive(Clone, Copy, Debug, PartialEq, Eq, Hash)]
pub struct Judgement {
    /// The level at which the assertion holds.
    pub level: Level,
    /// Whether the record put the assertion to the test: from the first sample on some strong or
    /// weak was reached, and each `|->` on the way there had its left side matched where it was
    /// asked. A `|->` that is not on the way there may never have been asked.
    pub tested: bool,
}

/// What the library said, as a result.
pub(crate) fn settle(judgement: raw::Judgement) -> Result<Judgement, Refusal> {
    refusal::settle(judgement.verdict)?;
    Ok(Judgement {
        level: Level::of(judgement.level),
        tested: judgement.tested,
    })
}

/// The program's line, such as `level 1 tested yes`.
impl fmt::Display for Judgement {
    fn fmt(&self, f: &mut fmt::Formatter<'_>) -> fmt::Result {
        let tested = if self.tested { "yes" } else { "no" };
        write!(f, "level {} tested {tested}", self.level.number())
    }
}

/// Where a sequence's matches from a start end.
#[derive(Clone, Copy, Debug, PartialEq, Eq, Hash)]
pub struct MatchEnds {
    /// Bit j is set where samples start to j - 1 match; bit start is set for an empty match.
    pub mask: u64,
    /// Whether the samples from start on, followed by one or more ⊤, match. ⊤ is a letter that
    /// satisfies every boolean.
    pub top: bool,
}

impl MatchEnds {
    /// The ends of the mask, in order. Samples start to j - 1 match for each end j.
    pub fn ends(self) -> impl Iterator<Item = usize> {
        (0..=LONGEST).filter(move |end| self.mask >> end & 1 == 1)
    }
}

#[cfg(test)]
mod tests {
    use super::*;

    const LEVELS: [Level; 4] = [Level::Broken, Level::Weak, Level::Neutral, Level::Strong];

    #[test]
    fn levels_have_their_numbers_and_order() {
        for (number, level) in (0..).zip(LEVELS) {
            assert_eq!(level.number(), number);
            assert_eq!(Level::of(number), level);
        }
        assert!(LEVELS.is_sorted());
    }

    #[test]
    fn levels_read_as_in_the_readme() {
        let readme = include_str!("../../../README.md");
        for level in LEVELS {
            let row = format!("| {} | {level} | {} |", level.number(), level.meaning());
            assert!(readme.contains(&row), "README.md has no row {row:?}");
        }
    }

    /// Level 3 is strong, 2 neutral, 1 weak, and each answer implies the next.
    #[test]
    fn levels_are_the_answers_of_the_page() {
        let page = include_str!("../../../docs/FORMAT.md");
        for level in LEVELS {
            let number = level.number();
            let answers = [3, 2, 1].map(|least| if number >= least { "yes" } else { "no" });
            let row = format!(
                "| {number} | {} | {} |",
                answers.join(" | "),
                level.meaning()
            );
            assert!(page.contains(&row), "docs/FORMAT.md has no row {row:?}");
        }
    }

    #[test]
    fn a_judgement_is_the_line_of_the_program() {
        let level = Level::Strong;
        let line = |tested| Judgement { level, tested }.to_string();
        assert_eq!(line(true), "level 3 tested yes");
        assert_eq!(line(false), "level 3 tested no");
    }

    #[test]
    fn ends_are_the_bits_of_the_mask() {
        let ends = |mask| MatchEnds { mask, top: false }.ends().collect::<Vec<_>>();
        assert_eq!(ends(0), []);
        assert_eq!(ends(6), [1, 2]);
        assert_eq!(ends(1 << 63 | 1), [0, 63]);
        assert_eq!(ends(u64::MAX), (0..=63).collect::<Vec<_>>());
    }
}
