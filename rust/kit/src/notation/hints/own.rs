//! The parts of a text as a proposal repeats them: whole, or not at all.
use super::forms::{bare, tight};
use super::Hint;
use crate::assertion::Sort;
use crate::notation::operands::Wanted;
use crate::notation::parser::Parser;
use crate::notation::sorts::Part;
use crate::words::unseen;

/// The characters of a part that a proposal repeats, at most.
const LONGEST: usize = 100;

/// What strong and weak say.
pub const STRENGTH: &str = "strong must match in the record, weak must only not be ruled out";

/// A part that was read for a letter.
type Read = (char, Option<Part>);

impl Parser<'_> {
    /// Reads a part for a hint alone; none where there is a mistake in it.
    pub fn part_ahead(&mut self, least: u8) -> Option<Part> {
        self.for_hint();
        self.part(least, Wanted::Any).ok()
    }

    /// The text from one byte to another, where it is short, on one line and without a comment.
    pub fn own_text(&self, from: usize, to: usize) -> Option<&str> {
        let text = self.text().get(from..to)?.trim();
        let short = text.chars().count() <= LONGEST;
        let plain = !text.contains("//") && !text.contains(unseen);
        (short && plain && !text.is_empty()).then_some(text)
    }

    /// A part as it stands in the text.
    pub fn own(&self, part: Part) -> Option<&str> {
        self.own_text(part.start.offset, part.end)
    }

    /// A part for a letter: P and Q are properties, so strong stands around what is none. None where the part is
    /// not of the letter's sort.
    pub fn own_for(&self, letter: char, part: Part) -> Option<(char, String)> {
        let text = self.own(part)?;
        let text = match (letter, part.sort) {
            ('P' | 'Q', Sort::Property) => text.to_string(),
            ('P' | 'Q', _) => format!("strong({})", bare(text)),
            ('R' | 'S', Sort::Property) => return None,
            ('R' | 'S', _) | (_, Sort::Boolean) => text.to_string(),
            _ => return None,
        };
        Some((letter, text))
    }

    /// A hint with the parts that were read for its letters; with the letters alone where one is missing.
    pub fn with_parts(&self, hint: Hint, parts: &[Read]) -> Hint {
        let shown = |&(letter, part): &Read| Some((letter, self.own(part?)?.to_string()));
        let put_in = |&(letter, part): &Read| self.own_for(letter, part?);
        let own: Option<Vec<(char, String)>> = parts.iter().map(shown).collect();
        let texts: Option<Vec<(char, String)>> = parts.iter().map(put_in).collect();
        match (own, texts) {
            (Some(own), Some(texts)) => hint.with(&own, &texts),
            _ => hint,
        }
    }

    /// The same in words, also on strong where it was put around a part.
    pub fn told_with(&self, hint: Hint, parts: &[Read]) -> String {
        let put_in = |(letter, part): &Read| self.own_for(*letter, (*part)?);
        let whole = parts.iter().all(|read| put_in(read).is_some());
        let added = |(letter, part): &Read| strong_added(*letter, *part);
        let proposes = whole && hint.instead().is_some();
        let more = match proposes && parts.iter().any(added) {
            true => format!("; {STRENGTH}"),
            false => String::new(),
        };
        format!("{}{more}", self.with_parts(hint, parts))
    }
}

/// Whether strong is put around a part, which stands for a property and is none.
fn strong_added(letter: char, part: Option<Part>) -> bool {
    let property = part.is_some_and(|part| part.sort == Sort::Property);
    matches!(letter, 'P' | 'Q') && !property
}

/// `!a`, with parentheses where they are needed.
pub fn turned(text: &str) -> String {
    match tight(text) {
        true => format!("!{text}"),
        false => format!("!({text})"),
    }
}
