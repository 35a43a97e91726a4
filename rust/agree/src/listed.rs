//! The cases that `second` lists, so that they are not left to chance.
use crate::Side;
use second::{answer_text, case_text, listed};

/// Compares the two sides on each of them: how many they are, or the first that differs, in words.
pub fn compare_listed(library: Side, second: Side) -> Result<usize, String> {
    let cases = listed();
    for (label, case) in (1..).zip(&cases) {
        let (ours, theirs) = (library(case), second(case));
        if ours != theirs {
            let case = case_text(label, case);
            let (ours, theirs) = (answer_text(label, &ours), answer_text(label, &theirs));
            return Err(format!(
                "the library and second differ on a listed case:\n\
                 case:    {case}\nlibrary: {ours}\nsecond:  {theirs}"
            ));
        }
    }
    Ok(cases.len())
}
