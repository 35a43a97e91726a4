//! Mistakes in a text, and how they are shown.
use super::lexer::Place;
use crate::words;
use std::fmt;

/// The characters of a long line that are shown before and after the place.
const BEFORE: usize = 60;
const AFTER: usize = 40;

/// A mistake in a text: where it stands and what was expected there.
#[derive(Clone, Debug, PartialEq, Eq)]
pub struct Mistake {
    /// The line, from 1.
    pub line: usize,
    /// The column in characters, from 1.
    pub column: usize,
    /// What was expected.
    pub words: String,
    /// The line as it stands in the text.
    pub shown: String,
}

impl Mistake {
    /// A mistake at a place of a text.
    pub(super) fn at(text: &str, place: Place, words: String) -> Mistake {
        let shown = text.lines().nth(place.line.saturating_sub(1));
        Mistake {
            line: place.line,
            column: place.column,
            words,
            shown: shown.unwrap_or_default().to_string(),
        }
    }
}

/// Line, column and words; below them the line, cut around the place where it is long, and a caret
/// under the place. A tab before the place stays a tab, so that the caret stands right.
impl fmt::Display for Mistake {
    fn fmt(&self, f: &mut fmt::Formatter<'_>) -> fmt::Result {
        write!(f, "{}:{}: {}", self.line, self.column, self.words)?;
        if self.shown.trim().is_empty() {
            return Ok(());
        }
        let before = self.column.saturating_sub(1);
        let from = before.saturating_sub(BEFORE);
        let open = if from > 0 { ".. " } else { "" };
        let part: Vec<char> = self.shown.chars().skip(from).map(printable).collect();
        let wanted = before - from + AFTER;
        let close = if part.len() > wanted { " .." } else { "" };
        let line: String = part.iter().take(wanted).collect();
        let under: String = part.iter().take(before - from).map(blank).collect();
        let margin = " ".repeat(open.len());
        write!(f, "\n  {open}{line}{close}\n  {margin}{under}^")
    }
}

/// A character as a terminal can show it; a tab does no harm.
fn printable(c: char) -> char {
    match c {
        '\t' => '\t',
        c => words::printable(c),
    }
}

/// What stands under a character, as wide as it is.
fn blank(c: &char) -> &'static str {
    match *c {
        '\t' => "\t",
        c if wide(c) => "  ",
        _ => " ",
    }
}

/// Whether a terminal gives a character two cells: those of East Asia, and pictographs.
fn wide(c: char) -> bool {
    matches!(c,
        '\u{1100}'..='\u{115f}' | '\u{2e80}'..='\u{a4cf}' | '\u{ac00}'..='\u{d7a3}'
        | '\u{f900}'..='\u{faff}' | '\u{fe30}'..='\u{fe6f}' | '\u{ff01}'..='\u{ff60}'
        | '\u{ffe0}'..='\u{ffe6}' | '\u{1f300}'..='\u{1faff}' | '\u{20000}'..='\u{3fffd}')
}
