//! A case on which the two sides differ.
use crate::{Run, Side};
use second::{answer_text, case_text, random_case, shrink, Answer, Case};
use std::fmt;

/// The smallest case found on which the sides differ, with the answer of each.
#[derive(Debug)]
pub struct Difference {
    /// The seed of the case that was found first.
    pub seed: u64,
    /// The case, shrunk.
    pub case: Case,
    /// What the library answered.
    pub library: Answer,
    /// What the program `second` answered.
    pub second: Answer,
}

impl Difference {
    /// Shrinks the case of this seed, on which the sides differ.
    pub fn shrunk(seed: u64, library: Side, second: Side) -> Difference {
        let mut differs = |case: &Case| library(case) != second(case);
        let case = shrink(random_case(seed), &mut differs);
        Difference {
            seed,
            library: library(&case),
            second: second(&case),
            case,
        }
    }

    /// The first place where what was lent differs afterwards, if it does.
    fn place(&self) -> Option<String> {
        match (&self.library, &self.second) {
            (Answer::Read(_, ours), Answer::Read(_, theirs))
            | (Answer::Judge(_, ours), Answer::Judge(_, theirs))
            | (Answer::Ends(_, ours), Answer::Ends(_, theirs)) => first("word", ours, theirs),
            (Answer::Expand(_, ours), Answer::Expand(_, theirs))
            | (Answer::Rewrite(_, ours), Answer::Rewrite(_, theirs)) => first("byte", ours, theirs),
            _ => None,
        }
    }
}

/// The first item in which two buffers differ, of the same length since the case lends it.
fn first<T: PartialEq + fmt::LowerHex>(name: &str, ours: &[T], theirs: &[T]) -> Option<String> {
    let place = ours.iter().zip(theirs).position(|(one, two)| one != two)?;
    let (one, two) = (&ours[place], &theirs[place]);
    Some(format!(
        "lent:    {name} {place} is {one:#x} by the library, {two:#x} by second"
    ))
}

impl fmt::Display for Difference {
    fn fmt(&self, f: &mut fmt::Formatter<'_>) -> fmt::Result {
        let (seed, cases) = (self.seed, 1);
        writeln!(f, "the library and second differ; the smallest case found:")?;
        writeln!(f, "case:    {}", case_text(seed, &self.case))?;
        writeln!(f, "library: {}", answer_text(seed, &self.library))?;
        writeln!(f, "second:  {}", answer_text(seed, &self.second))?;
        if let Some(place) = self.place() {
            writeln!(f, "{place}")?;
        }
        write!(f, "again:   {}", Run { seed, cases })
    }
}
