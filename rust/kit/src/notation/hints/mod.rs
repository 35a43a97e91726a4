//! What people write who know SystemVerilog or another language, and what to write instead.
pub mod foreign;
pub mod foreign_operands;
pub mod forms;
pub mod leading;
pub mod numbered;
pub mod own;
pub mod prefixes;
pub mod spans;
mod tables;
pub mod wrapped;

use crate::assertion::MOST_NODES;
use forms::{filled, written, Texts};
pub use numbered::past;
pub use prefixes::{prefix, takes_numbers};
use std::fmt;
pub use tables::{ACTION, CONDITION, FOREIGN, FUNCTIONS, REPETITIONS, SET_UP};
use tables::{BIT, DELAY, FUNCTION, TASKS};

/// What to write instead.
#[derive(Clone, Debug, PartialEq, Eq)]
pub enum Hint {
    /// A form, and the same in the notation. P, Q stand for properties, R, S for sequences and
    /// a, b, c for booleans. What is put in for a letter may bind as loosely as it may in the form, so
    /// the letter is in parentheses where that would be read otherwise.
    Written(&'static str, &'static str),
    /// The same, and more words.
    Noted(&'static str, &'static str, &'static str),
    /// A form and the same in the notation, with the numbers or the parts that were given.
    Made(String, String),
    /// The same, after words on what is wrong with the form.
    Turned(String, String, String),
    /// A form that no table has room for.
    Vast(String),
    /// In other words.
    Words(&'static str),
    /// In words with what was given.
    Told(String),
}

use Hint::{Made, Noted, Told, Turned, Vast, Words, Written};

impl Hint {
    /// The hint with texts put in for its letters: those of a person in the form, and what is to be written for
    /// each in what is written instead.
    pub fn with(self, own: &Texts, texts: &Texts) -> Hint {
        let both = |form: &str, instead: &str| (filled(form, own), written(instead, texts));
        match self {
            Written(form, instead) => {
                let (form, instead) = both(form, instead);
                Made(form, instead)
            }
            Noted(form, instead, more) => {
                let (form, instead) = both(form, instead);
                Told(format!("{}{more}", Made(form, instead)))
            }
            Made(form, instead) => {
                let (form, instead) = both(&form, &instead);
                Made(form, instead)
            }
            Turned(words, form, instead) => {
                let (form, instead) = both(&form, &instead);
                Turned(words, form, instead)
            }
            Vast(form) => Vast(filled(&form, own)),
            Words(_) | Told(_) => self,
        }
    }

    /// The hint with something else made of what is to be written.
    pub fn map(self, make: impl Fn(&str) -> String) -> Hint {
        match self {
            Made(form, instead) => Made(form, make(&instead)),
            Turned(words, form, instead) => Turned(words, form, make(&instead)),
            other => other,
        }
    }

    /// The hint for a form that is called otherwise.
    pub fn called(self, form: String) -> Hint {
        match self {
            Made(_, instead) => Made(form, instead),
            Turned(words, _, instead) => Turned(words, form, instead),
            Vast(_) => Vast(form),
            other => other,
        }
    }

    /// The form that is not part of the notation.
    pub fn form(&self) -> Option<&str> {
        match self {
            Written(form, _) | Noted(form, ..) => Some(form),
            Made(form, _) | Turned(_, form, _) | Vast(form) => Some(form),
            Words(_) | Told(_) => None,
        }
    }

    /// What is to be written for it.
    pub fn instead(&self) -> Option<&str> {
        match self {
            Written(_, instead) | Noted(_, instead, _) => Some(instead),
            Made(_, instead) | Turned(_, _, instead) => Some(instead),
            Vast(_) | Words(_) | Told(_) => None,
        }
    }
}

impl fmt::Display for Hint {
    fn fmt(&self, f: &mut fmt::Formatter<'_>) -> fmt::Result {
        match self {
            Written(form, instead) => write!(f, "`{form}` is written `{instead}`"),
            Noted(form, instead, more) => write!(f, "`{form}` is written `{instead}`{more}"),
            Made(form, instead) => write!(f, "`{form}` is written `{instead}`"),
            Turned(words, form, instead) => write!(f, "{words}: `{form}` is written `{instead}`"),
            Vast(form) => {
                let most = format!("more than the {MOST_NODES} nodes of a table");
                write!(f, "`{form}` is written out to {most}")
            }
            Words(words) => f.write_str(words),
            Told(words) => f.write_str(words),
        }
    }
}

/// The hint for a word or sign that is not part of the notation.
pub fn of(text: &str) -> Option<Hint> {
    if text.starts_with('$') && text.len() > 1 {
        let other = if TASKS.contains(&text) {
            ACTION
        } else {
            FUNCTION
        };
        return Some(find(&FUNCTIONS, text).unwrap_or(other));
    }
    find(&FOREIGN, text)
}

/// Whether a word is a function with a hint of its own.
pub fn is_function(text: &str) -> bool {
    FUNCTIONS.iter().any(|(name, _)| *name == text)
}

/// The hint for an edge of a clock.
pub fn edge(word: &str, clock: &str) -> Hint {
    let (instead, says) = match word {
        "posedge" => (
            format!("rose({clock})"),
            "is 1, and was 0 at the sample before",
        ),
        "negedge" => (
            format!("fell({clock})"),
            "is 0, and was 1 at the sample before",
        ),
        _ => (
            format!("rose({clock}) | fell({clock})"),
            "is not as it was at the sample before",
        ),
    };
    Told(format!(
        "`{word} {clock}` is written `{instead}`, as in `@({instead})`: {clock} {says}, so it sees the values after the \
         edge; SystemVerilog sees those before it, as `kit record --on \"{word} {clock}\"` samples them, and then the \
         clock is left out"
    ))
}

/// The hint for what stands between `[` and `]` after a part, without blanks, where it is no repetition
/// of the notation.
pub fn repetition(inside: &str) -> Hint {
    let known = find(&REPETITIONS, inside).or_else(|| numbered::repetition(inside));
    known.unwrap_or(match inside.chars().next() {
        Some('*' | '-' | '=') => {
            Words("a repetition is written `R[*3]`, `R[*2:5]`, `b[->2]` or `b[=2]`")
        }
        _ => BIT,
    })
}

/// The hint for what follows `##`, without blanks, where it is no delay of the notation.
pub fn delay(after: &str) -> Hint {
    numbered::delay(after).unwrap_or(DELAY)
}

/// The hint for a `##` with nothing before it, by what follows it without blanks.
pub fn leading_delay(after: &str) -> Hint {
    numbered::leading_delay(after).unwrap_or(DELAY)
}

/// The signs that are not part of the notation and have a hint.
pub fn signs() -> impl Iterator<Item = &'static str> {
    let signs = FOREIGN.iter().map(|(sign, _)| *sign);
    signs.filter(|sign| !sign.starts_with(char::is_alphabetic))
}

fn find(table: &[(&str, Hint)], text: &str) -> Option<Hint> {
    let row = table.iter().find(|(known, _)| *known == text)?;
    Some(row.1.clone())
}
