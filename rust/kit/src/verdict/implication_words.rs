//! Whether the record tested the assertion, and which `|->` were asked, in words.
use super::account::{Account, Explained};
use super::implications::Implication;
use crate::words;

/// Whether the record tested the assertion, and then a line for each `|->`.
pub fn implication_words(account: &Account) -> String {
    let judged = account.judged();
    let tested = match (judged.judgement.tested, judged.asked) {
        (true, Some(false)) => format!("Tested, but not every {} was asked.\n", account.signs),
        (true, _) => "Tested: the record put the assertion to the test.\n".to_string(),
        (false, _) => {
            "Not tested: no strong and no weak of the assertion was reached.\n".to_string()
        }
    };
    let samples = account.verdict.samples();
    let lines = |explained: &Explained| -> String {
        let implications = explained.implications.iter();
        implications.map(|it| line(it, samples)).collect()
    };
    let lines = account.explained.as_ref().map(lines);
    tested + &lines.unwrap_or_default()
}

fn line(implication: &Implication, samples: usize) -> String {
    let part = &implication.part;
    if implication.reached.is_empty() {
        return format!("Never asked: {part}: it was never reached.\n");
    }
    let from = places(&implication.reached, samples);
    if !implication.asked() {
        let why = match implication.awaiting {
            Some(awaiting) => awaiting.words(),
            None => "its left side never matched from there".to_string(),
        };
        return format!("Never asked: {part}, reached from {from}: {why}.\n");
    }
    let at = places(&implication.matched, samples);
    let what = match implication.operator.asks_later() {
        true => "its right side was asked",
        false => "its left side matched",
    };
    format!("Asked: {part}, reached from {from}: {what} at {at}.\n")
}

/// `sample 3`, `samples 0 to 3 and 5`, and after them the end of the record.
fn places(positions: &[usize], samples: usize) -> String {
    let (inside, end): (Vec<usize>, Vec<usize>) =
        positions.iter().partition(|position| **position < samples);
    let end = (!end.is_empty()).then(|| "the end of the record".to_string());
    let places: Vec<String> = [samples_words(&inside), end]
        .into_iter()
        .flatten()
        .collect();
    words::list(&places)
}

/// `sample 3`, or `samples 0 to 3 and 5`; nothing where there are none.
pub(super) fn samples_words(samples: &[usize]) -> Option<String> {
    match samples {
        [] => None,
        [sample] => Some(format!("sample {sample}")),
        many => Some(format!("samples {}", words::ranges(many))),
    }
}
