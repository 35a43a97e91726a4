//! What to write for words before a property with numbers in brackets, such as `nexttime[2]`.
use super::numbered::{fits, fitting, forwards};
use super::spans::later;
use super::Hint::{self, Told, Turned};
use crate::notation::counts;

/// Whether SystemVerilog has a word before a property with numbers in brackets.
pub fn takes_numbers(word: &str) -> bool {
    let weak = ["nexttime", "always", "eventually"];
    weak.contains(&word.strip_prefix("s_").unwrap_or(word))
}

/// The hint for what stands in brackets after such a word, without blanks. Source 000 (F.2.3.2.8) joins a nexttime
/// for each number; these say the same with P once or twice. A strong word asks that the record goes so far, as
/// `#-#` does, and a weak one does not, as `|->`.
pub fn prefix(word: &str, inside: &str) -> Hint {
    // something else than numbers gets an example
    let example = if word.ends_with("nexttime") {
        "2"
    } else {
        "2:3"
    };
    let (inside, (m, n)) = match counts::pair(inside) {
        Some(numbers) => (inside, numbers),
        None => (example, (2, Some(3))),
    };
    let own = format!("{word}[{inside}] P");
    match (word, n) {
        ("nexttime" | "s_nexttime", _) => {
            let number = inside.split(':').next().unwrap_or(inside);
            fitting(format!("{word}[{number}] P"), next(word, m))
        }
        (_, Some(n)) => forwards(own, m, n, |m, n| {
            (format!("{word}[{m}:{n}] P"), ranged(word, m, n))
        }),
        ("eventually", _) => unbounded(word, "s_eventually", m),
        ("s_always", _) => unbounded(word, "always", m),
        _ => fitting(own, endless(word, m)),
    }
}

fn next(word: &str, m: u8) -> String {
    let sign = if word == "nexttime" { "|->" } else { "#-#" };
    format!("({} {sign} P)", later(m, m))
}

fn ranged(word: &str, m: u8, n: u8) -> String {
    let (all, before) = (later(m, n), later(m, n.saturating_sub(1).max(m)));
    let last = later(n, n);
    match word {
        "always" => format!("({all} |-> P)"),
        "s_eventually" => format!("({all} #-# P)"),
        "eventually" if m == n => format!("({all} |-> P)"),
        "eventually" => format!("(({before} #-# P) or ({last} |-> P))"),
        _ if m == n => format!("({all} #-# P)"),
        _ => format!("(({before} |-> P) and ({last} #-# P))"),
    }
}

/// `always[m:$] P` or `s_eventually[m:$] P`.
fn endless(word: &str, m: u8) -> String {
    let sign = if word == "always" { "|->" } else { "#-#" };
    format!("({} {sign} {word} P)", later(m, m))
}

/// A word that needs a last number, and the one that does not.
fn unbounded(word: &str, other: &str, m: u8) -> Hint {
    let words = format!("{word} counts to a number and not to $");
    let (own, instead) = (format!("{other}[{m}:$] P"), endless(other, m));
    match fits(&instead) {
        true => Turned(words, own, instead),
        false => Told(words),
    }
}
