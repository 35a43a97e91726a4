//! The verdict in words.
use super::account::Account;
use super::implication_words::implication_words;
use super::rows::rows;
use super::{part_words, unexplained_words, Refused};
use crate::files;
use crate::refusals::{self, Kind};
use crate::required::Required;
use std::path::Path;
use xistomar::Level;

/// The program's line, and then what it says, for people; `once` says that asking once is meant.
pub fn words(account: &Account, required: Required, once: bool) -> String {
    let judgement = account.verdict.judgement;
    let mut text = format!("{judgement}\n\nAssertion: {}\n", account.assertion);
    text.push_str(level_words(judgement.level));
    text.push_str(&implication_words(account));
    if let Some(asked_once) = account.once.as_ref().filter(|_| !once) {
        text.push_str(&asked_once.words());
    }
    text.push_str(&format!("\n{}\n", rows(&account.verdict.levels)));
    text.push_str(&closed_words(account));
    text.push_str(&match &account.explained {
        Some(explained) => part_words(account, explained),
        None => unexplained_words(account),
    });
    text.push_str(&required_words(account, required));
    text
}

/// What a level means.
fn level_words(level: Level) -> &'static str {
    match level {
        Level::Strong => "Level 3, strong: the assertion held, whatever comes next.\n",
        Level::Neutral => "Level 2, neutral: the assertion held as the record stands.\n",
        Level::Weak => {
            "Level 1, weak: nothing is broken, and something is still awaited.\n\
             If nothing more came, the assertion would not have held.\n"
        }
        Level::Broken => "Level 0, broken: the assertion was broken, whatever comes next.\n",
    }
}

/// Whether a longer record may change the level.
fn closed_words(account: &Account) -> String {
    match account.verdict.closed() {
        Some(sample) => {
            let sample = account.sample(sample);
            format!("Closed at {sample}: a longer record never overturns it.\n")
        }
        None => "Not closed: what comes next may still change it.\n".to_string(),
    }
}

/// Whether what was required is reached, a line for each.
fn required_words(account: &Account, required: Required) -> String {
    let line = |(what, reached): (String, bool)| match reached {
        true => format!("Required {what}: reached.\n"),
        false => format!("Required {what}: not reached.\n"),
    };
    let each = required.each(account.judged());
    each.into_iter().map(line).collect()
}

/// The program's line for a refusal, which file it is of and why, and what helps. `path` is where
/// that file is, `bytes` are its bytes, and `more` is what else is said of a table with 9 or 13.
pub fn refusal_words(refused: Refused, path: &Path, bytes: &[u8], more: &str) -> String {
    let refusal = refused.refusal();
    let (file, number) = (refused.file(), refusal.number());
    let place = match number {
        6 | 7 | 9 => format!(" at node {}", refusal.node()),
        _ => String::new(),
    };
    let line = refused.line();
    let reason = refusal.reason();
    let mut text =
        format!("{line}\n\nThe {file} is refused with number {number}{place}: {reason}.\n");
    text.push_str(match number {
        12 => {
            "This table is a sequence, and the judge takes a property: strong(..) or weak(..) around \
             it makes one.\n"
        }
        9 | 13 => more,
        _ => "",
    });
    let shown = files::shown(path);
    match (mark_words(refused, bytes), refused) {
        (Some(words), _) if number == 2 => text.push_str(&format!("{shown} {words}.\n")),
        (_, Refused::Table(_)) => text.push_str(&format!("kit show {shown} shows the table.\n")),
        _ => {}
    }
    text
}

/// What stands where another file is due.
fn mark_words(refused: Refused, bytes: &[u8]) -> Option<&'static str> {
    match (refused, refusals::kind(bytes)) {
        (Refused::Table(_), Kind::Record) => {
            Some("has the mark of a record: the TABLE comes first, and the RECORD second")
        }
        (Refused::Table(_), Kind::Text) => Some("may be a text: the name of a text ends in .txt"),
        (Refused::Record(_), Kind::Table) => {
            Some("has the mark of a table: the TABLE comes first, and the RECORD second")
        }
        (Refused::Record(_), Kind::Text) => {
            Some("may be a text or a waveform: kit record makes a record of a waveform")
        }
        _ => None,
    }
}
