//! Assertions as text: a small notation for exactly the operators of docs/FORMAT.md.
//! docs/NOTATION.md has its grammar.
mod comment;
mod counts;
mod declarations;
mod edges;
mod hints;
mod levels;
mod lexer;
mod mistake;
mod operands;
mod operators;
mod parser;
mod sorts;
mod writer;

use crate::assertion::Assertion;
use crate::names::Names;
pub use comment::comment;
pub use hints::spans::{even_delay, even_times};
pub use mistake::Mistake;
use parser::Parser;
pub use sorts::called;

/// The words that cannot name a signal.
pub const RESERVED: [&str; 15] = [
    "signals",
    "let",
    "strong",
    "weak",
    "not",
    "nexttime",
    "s_nexttime",
    "always",
    "s_eventually",
    "and",
    "or",
    "until",
    "s_until",
    "rose",
    "fell",
];

/// A text that was read: the signals that it declares, and its assertion.
#[derive(Clone, Debug, PartialEq, Eq)]
pub struct Text {
    /// The declared signals.
    pub names: Names,
    /// The assertion, in the kit's order.
    pub assertion: Assertion,
}

/// Reads a text.
pub fn read(text: &str) -> Result<Text, Mistake> {
    let mut parser = Parser::new(without_mark(text));
    parser.signals()?;
    parser.definitions()?;
    parser.assertion()?;
    Ok(parser.finish())
}

/// Reads the declarations of a text alone; it may end after them.
pub fn read_names(text: &str) -> Result<Names, Mistake> {
    let mut parser = Parser::new(without_mark(text));
    parser.signals()?;
    Ok(parser.names())
}

/// The text of an assertion, declarations included. Read again, it gives the same assertion in the
/// kit's order.
pub fn write(assertion: &Assertion, names: &Names) -> String {
    writer::text(&assertion.tidy(), names)
}

/// One node of an assertion with all below it, in one line. A clock above it is not part of it, and
/// a shared boolean that is very long is cut to `..`.
pub fn phrase(assertion: &Assertion, index: usize, names: &Names) -> String {
    writer::phrase(assertion, index, names)
}

/// A sequence or property node of an assertion with all below it, under its clock, in one line as
/// [`phrase`] writes it.
pub fn part(assertion: &Assertion, index: usize, names: &Names) -> String {
    let part = assertion.part(index);
    phrase(&part, part.root(), names)
}

/// All of an assertion in one line; none where [`phrase`] cuts it.
pub fn whole(assertion: &Assertion, names: &Names) -> Option<String> {
    writer::whole(assertion, names)
}

/// The text without the byte order mark that some editors put before it.
fn without_mark(text: &str) -> &str {
    text.strip_prefix('\u{feff}').unwrap_or(text)
}

#[cfg(test)]
mod tests;
