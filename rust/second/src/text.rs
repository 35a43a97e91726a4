//! Cases and answers as lines of text.

use crate::answers::Judgement;
use crate::case::{Answer, Case};
use crate::verdict::Verdict;
use std::fmt::{Display, Write};

/// Limits of one line of case text.
const MOST_BYTES: usize = 2048;
const MOST_SAMPLES: usize = 100;
const MOST_CHARACTERS: usize = 8192;

/// The most that a case may lend.
const MOST_READ_WORDS: usize = 64;
const MOST_TABLE_BYTES: usize = 500;
const MOST_WORKSPACE: usize = 7865;

/// The line of a case, without the newline.
pub fn case_text(label: u64, case: &Case) -> String {
    match case {
        Case::Check { table } => format!("check {label}:{}", byte_runs(table)),
        Case::Read { record, words } => format!("read {words} {label}:{}", byte_runs(record)),
        Case::Expand { table, bytes } => format!("expand {bytes} {label}:{}", byte_runs(table)),
        Case::Rewrite { table, bytes } => format!("rewrite {bytes} {label}:{}", byte_runs(table)),
        Case::Judge {
            table,
            samples,
            words,
        } => {
            let lists = (byte_runs(table), sample_runs(samples));
            format!("judge {words} {label}:{} /{}", lists.0, lists.1)
        }
        Case::Plain { table, samples } => {
            let lists = (byte_runs(table), sample_runs(samples));
            format!("plain {label}:{} /{}", lists.0, lists.1)
        }
        Case::Ends {
            table,
            samples,
            start,
            words,
        } => {
            let lists = (byte_runs(table), sample_runs(samples));
            format!("ends {start} {words} {label}:{} /{}", lists.0, lists.1)
        }
        Case::Program { input } => format!("program {label}:{}", byte_runs(input)),
    }
}

/// Bytes, each after a space.
fn byte_runs(bytes: &[u8]) -> String {
    runs(bytes, |byte| format!("{byte:02x}"))
}

/// Samples, each after a space.
fn sample_runs(samples: &[u64]) -> String {
    runs(samples, |sample| format!("{sample:x}"))
}

/// Items each after a space, three or more equal ones in a row as `XX*N`.
fn runs<T: PartialEq>(items: &[T], show: impl Fn(&T) -> String) -> String {
    let mut text = String::new();
    for run in items.chunk_by(|a, b| a == b) {
        let shown = show(&run[0]);
        if run.len() >= 3 {
            text += &format!(" {shown}*{}", run.len());
        } else {
            text += &format!(" {shown}").repeat(run.len());
        }
    }
    text
}

/// The line of an answer, without the newline.
pub fn answer_text(label: u64, answer: &Answer) -> String {
    let said = match answer {
        Answer::Check(verdict) => said(*verdict, "", "accepted"),
        Answer::Read(reading, words) => {
            let accepted = format!("{} samples", reading.count);
            let words = after_spaces(words);
            said(reading.verdict, ", count 0", &accepted) + ", words" + &words
        }
        Answer::Expand(expansion, bytes) => {
            written_text(expansion.verdict, expansion.count) + &digits(bytes)
        }
        Answer::Rewrite(rewriting, bytes) => {
            written_text(rewriting.verdict, rewriting.count) + &digits(bytes)
        }
        Answer::Judge(judgement, words) => judgement_text(judgement) + &digest_text(words),
        Answer::Plain(judgement) => judgement_text(judgement),
        Answer::Ends(ends, words) => {
            let accepted = format!("ends {:x} top {}", ends.mask, yes_or_no(ends.top));
            let refused = format!(", {accepted}");
            said(ends.verdict, &refused, &accepted) + &digest_text(words)
        }
        Answer::Program(line) => line.clone(),
    };
    format!("{label}: {said}")
}

/// How many nodes were written, or the refusal; the bytes follow.
fn written_text(verdict: Verdict, count: usize) -> String {
    said(verdict, ", count 0", &format!("{count} nodes")) + ", bytes "
}

/// What a judge answered, refused or not.
fn judgement_text(judgement: &Judgement) -> String {
    let tested = yes_or_no(judgement.tested);
    let accepted = format!("level {} tested {tested}", judgement.level);
    let refused = format!(", {accepted}");
    said(judgement.verdict, &refused, &accepted)
}

/// The refusal with what follows it, or the words of an acceptance.
fn said(verdict: Verdict, after_refusal: &str, accepted: &str) -> String {
    if verdict.accepted() {
        return accepted.to_string();
    }
    let (number, node) = (verdict.number, verdict.node);
    format!("refused {number} at {node}{after_refusal}")
}

/// The answer to a yes-or-no question.
fn yes_or_no(answer: bool) -> &'static str {
    if answer {
        "yes"
    } else {
        "no"
    }
}

/// Items in decimal, each after a space.
fn after_spaces<T: Display>(items: &[T]) -> String {
    items.iter().fold(String::new(), |mut text, item| {
        let _ = write!(text, " {item}");
        text
    })
}

/// Bytes as two hex digits each with nothing between.
fn digits(bytes: &[u8]) -> String {
    bytes.iter().fold(String::new(), |mut text, byte| {
        let _ = write!(text, "{byte:02x}");
        text
    })
}

/// The digest of a workspace as it stands in an answer.
fn digest_text(words: &[u64]) -> String {
    format!(", words {:016x}", digest(words))
}

/// One number that depends on every word lent.
fn digest(words: &[u64]) -> u64 {
    words.iter().fold(14_695_981_039_346_656_037, |h, word| {
        (h ^ word).wrapping_mul(1_099_511_628_211)
    })
}

/// The label and the case of a line, or what is wrong with it.
pub fn parse_case(line: &str) -> Result<(u64, Case), String> {
    if line.len() > MOST_CHARACTERS {
        return Err("the line is too long".to_string());
    }
    let (head, body) = line.split_once(':').ok_or("there is no colon")?;
    let head: Vec<&str> = head.split(' ').collect();
    let case = match head[..] {
        ["check", _] => Case::Check {
            table: bytes(body)?,
        },
        ["read", words, _] => Case::Read {
            words: number_up_to(words, MOST_READ_WORDS)?,
            record: bytes(body)?,
        },
        ["expand", lent, _] => Case::Expand {
            bytes: number_up_to(lent, MOST_TABLE_BYTES)?,
            table: bytes(body)?,
        },
        ["rewrite", lent, _] => Case::Rewrite {
            bytes: number_up_to(lent, MOST_TABLE_BYTES)?,
            table: bytes(body)?,
        },
        ["judge", words, _] => judge_case(words, body)?,
        ["plain", _] => plain_case(body)?,
        ["ends", start, words, _] => ends_case(start, words, body)?,
        ["program", _] => Case::Program {
            input: bytes(body)?,
        },
        _ => return Err("the words before the colon are not known".to_string()),
    };
    let label = head.last().copied().unwrap_or_default();
    Ok((number(label)?, case))
}

/// A case of the judge.
fn judge_case(words: &str, body: &str) -> Result<Case, String> {
    let (table, samples) = table_and_samples(body)?;
    Ok(Case::Judge {
        table,
        samples,
        words: number_up_to(words, MOST_WORKSPACE)?,
    })
}

/// A case of the plain judge.
fn plain_case(body: &str) -> Result<Case, String> {
    let (table, samples) = table_and_samples(body)?;
    Ok(Case::Plain { table, samples })
}

/// A case of match ends.
fn ends_case(start: &str, words: &str, body: &str) -> Result<Case, String> {
    let (table, samples) = table_and_samples(body)?;
    let start = number(start)?;
    Ok(Case::Ends {
        table,
        samples,
        start: usize::try_from(start).map_err(|_| "the start is too large")?,
        words: number_up_to(words, MOST_WORKSPACE)?,
    })
}

/// The bytes of a table, and after a slash samples.
fn table_and_samples(body: &str) -> Result<(Vec<u8>, Vec<u64>), String> {
    let (table, samples) = body.split_once('/').ok_or("there is no slash")?;
    Ok((bytes(table)?, samples_of(samples)?))
}

/// Bytes of two hex digits each, with runs.
fn bytes(text: &str) -> Result<Vec<u8>, String> {
    let numbers = expanded(text, MOST_BYTES, |item| item.len() == 2)?;
    Ok(numbers.into_iter().map(|number| number as u8).collect())
}

/// Samples of 1 to 16 hex digits with no leading zeros, with runs.
fn samples_of(text: &str) -> Result<Vec<u64>, String> {
    let good = |item: &str| matches!(item.len(), 1..=16) && (item == "0" || !item.starts_with('0'));
    expanded(text, MOST_SAMPLES, good)
}

/// Hex items separated by spaces, each perhaps as a run `XX*N`.
fn expanded(text: &str, most: usize, good: impl Fn(&str) -> bool) -> Result<Vec<u64>, String> {
    let mut numbers = Vec::new();
    for item in text.split(' ').filter(|item| !item.is_empty()) {
        let (digits, times) = match item.split_once('*') {
            Some((digits, times)) => (digits, number_up_to(times, most)?),
            None => (item, 1),
        };
        let lower_case = |c: char| matches!(c, '0'..='9' | 'a'..='f');
        if !good(digits) || !digits.chars().all(lower_case) {
            return Err(format!("{item:?} is not a number in hex as it should be"));
        }
        let number = u64::from_str_radix(digits, 16).map_err(|error| error.to_string())?;
        numbers.extend(vec![number; times]);
        if numbers.len() > most {
            return Err(format!("there are more than {most} items"));
        }
    }
    Ok(numbers)
}

/// A decimal number with a limit.
fn number_up_to(text: &str, most: usize) -> Result<usize, String> {
    match usize::try_from(number(text)?) {
        Ok(number) if number <= most => Ok(number),
        _ => Err(format!("{text} is more than {most}")),
    }
}

/// A decimal number of digits only.
fn number(text: &str) -> Result<u64, String> {
    if text.is_empty() || !text.bytes().all(|byte| byte.is_ascii_digit()) {
        return Err(format!("{text:?} is not a decimal number"));
    }
    text.parse()
        .map_err(|_| format!("{text:?} is too large a number"))
}
