//! Refusals in words. What the numbers mean stands in docs/FORMAT.md (Refusals).
use crate::assertion::{Assertion, Operator, Sort};
use crate::failure::Failure;
use crate::files;
use crate::notation;
use crate::sizes;
use crate::source::Source;
use std::path::Path;
use xistomar::Refusal;

/// The program's line.
pub fn line(refusal: Refusal) -> String {
    format!("refused {} at {}", refusal.number(), refusal.node())
}

/// The failure for a file that is refused: the program's line and the words of docs/FORMAT.md.
pub fn failure(path: &Path, refusal: Refusal) -> Failure {
    let (shown, line, reason) = (files::shown(path), line(refusal), refusal.reason());
    Failure::Refused(format!("{shown}: {line}: {reason}"))
}

/// The same for a table, with what else there is to say of it.
pub fn table_failure(path: &Path, source: &Source, refusal: Refusal) -> Failure {
    let failure = failure(path, refusal);
    match more(source, refusal).trim_end() {
        "" => failure,
        more => Failure::Refused(format!("{}\n{more}", failure.words())),
    }
}

/// What else to say of a refused table, in lines: of 9 the part that it is about, of 13 what to do.
pub fn more(source: &Source, refusal: Refusal) -> String {
    match refusal.number() {
        9 => format!("{}.\n", hollow_part(source, refusal.node())),
        13 => past(source),
        _ => String::new(),
    }
}

/// What to do about refusal 13, in lines: shorten what is written out to too much, or ask the plain engine.
pub fn past(source: &Source) -> String {
    match sizes::past(&source.table, &source.names) {
        Some((words, lines)) => format!("No engine judges it: {words}.\n{lines}"),
        None => PAST.to_string(),
    }
}

/// What to do about refusal 13 where the clocks are rewritten to too much, a line.
const PAST: &str =
    "The plain engine judges it: leave out --engine fast, and --asked, which is read off the fast engine's rows.\n";

/// What a file may be whose mark is not the one that is due.
#[derive(Clone, Copy, Debug, PartialEq, Eq)]
pub enum Kind {
    /// It has the mark of a table.
    Table,
    /// It has the mark of a record.
    Record,
    /// All of it can be read.
    Text,
    /// None of these.
    Other,
}

/// What a file may be.
pub fn kind(bytes: &[u8]) -> Kind {
    let readable = |byte: &u8| byte.is_ascii_graphic() || byte.is_ascii_whitespace();
    match bytes {
        [b'S', b'V', b'T', ..] => Kind::Table,
        [b'S', b'V', b'W', ..] => Kind::Record,
        _ if bytes.iter().all(readable) => Kind::Text,
        _ => Kind::Other,
    }
}

/// The part that refusal 9 is about, and what it means.
pub fn hollow_part(source: &Source, node: usize) -> String {
    let part = |assertion: Assertion| {
        let part = notation::phrase(&assertion, node, &source.names);
        format!("{part}: {}", hollow(assertion.node(node).operator))
    };
    let readable = Assertion::of_readable(&source.table);
    readable.map(part).unwrap_or_default()
}

/// Refusal 9 in other words, for the operator that it is given of. Of `|=>` and `#=#` an empty match will do.
pub fn hollow(operator: Operator) -> String {
    let sequence = match operator.is_implication() {
        true => format!("the left side of {}", operator.sign()),
        false => "its sequence".to_string(),
    };
    let stretch = match operator.asks_later() {
        true => "stretch of samples",
        false => "stretch of one or more samples",
    };
    format!("{sequence} matches no {stretch}, whatever they are")
}

/// What to say of an accepted table that is a sequence.
pub fn sequence(assertion: &Assertion) -> Option<&'static str> {
    let root = assertion.node(assertion.root()).operator;
    let words = "it is for match ends, and the judge refuses it with 12";
    (root.sort() == Sort::Sequence).then_some(words)
}

/// What to say of an accepted table that is too large once it is written out, or its clocks are rewritten
/// away.
pub fn too_large(source: &Source) -> Option<String> {
    if let Some((words, _)) = sizes::past(&source.table, &source.names) {
        return Some(format!("no engine judges it: {words}"));
    }
    let mut rewritten = [0; xistomar::TABLE_BYTES];
    let refusal = xistomar::rewrite(&source.table, &mut rewritten).err()?;
    let words =
        "the fast engine and the program refuse it with 13, rewritten count over 120: under a \
                 clock each letter counts 9 nodes, each nexttime 14 and each until 9; the plain engine judges it";
    (refusal.number() == 13).then(|| words.to_string())
}
