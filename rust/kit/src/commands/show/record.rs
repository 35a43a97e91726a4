//! A record, as text.
use super::form::{self, RECORD};
use crate::beside::{self, signal_lines, Beside, Recorded, RECORD_AGAIN};
use crate::failure::Failure;
use crate::files;
use crate::names::{Names, SIGNALS};
use crate::words;
use std::path::Path;
use xistomar::Refusal;

/// The names that a text declares, and the text.
type Text<'a> = (&'a Path, Names);

/// What is known of a record, where it agrees with the text.
pub fn known(path: &Path, bytes: &[u8], text: Option<&Text>) -> Result<Option<Recorded>, Failure> {
    let recorded: Option<Recorded> = beside::known(path, bytes)?;
    if let (Some(recorded), Some((text, names))) = (&recorded, text) {
        beside::agree((text, names), &[], (path, &recorded.names()), RECORD_AGAIN)?;
    }
    Ok(recorded)
}

/// The samples: how many, what is known of them, and a line for each. Without names to trust there are
/// numbers alone.
pub fn accepted(
    path: &Path,
    samples: &[u64],
    known: Result<Option<&Recorded>, ()>,
    text: Option<&Text>,
) -> String {
    let count = words::count(samples.len(), "sample");
    let (heading, names) = match (known, text) {
        (Ok(Some(recorded)), _) => (recorded_words(recorded), recorded.names()),
        (Ok(None), Some((_, names))) => (unknown_words(path), names.clone()),
        (Ok(None), None) => (unknown_words(path), Names::none()),
        (Err(()), _) => ("\n".to_string(), Names::none()),
    };
    let times = known.ok().flatten().map_or(&[][..], |it| &it.times);
    format!("{count}{heading}{}", sample_lines(samples, times, &names))
}

fn recorded_words(recorded: &Recorded) -> String {
    let span = recorded.span();
    let span = span.map_or(String::new(), |span| format!(", {span}"));
    let (waveform, lines) = (&recorded.waveform.file, signal_lines(&recorded.signals));
    format!("{span}, recorded from {waveform}\n{lines}")
}

fn unknown_words(path: &Path) -> String {
    let file = files::shown(&beside::path(path));
    format!("; names are not known of the record, for there is no {file}\n")
}

/// A line for each sample: its time where that is known, all signals as one number, and the names of
/// those that are 1.
fn sample_lines(samples: &[u64], times: &[String], names: &Names) -> String {
    let most = samples.iter().max().copied().unwrap_or_default();
    let digits = format!("{most:x}").len();
    let letters = times.iter().map(|time| time.chars().count());
    let letters = letters.max().unwrap_or_default();
    let line = |(place, sample): (usize, &u64)| {
        let time = times.get(place);
        let time = time.map_or(String::new(), |time| format!("{time:letters$}  "));
        let high = high(*sample, names);
        (place, format!("{time}0x{sample:0digits$x}  {high}"))
    };
    let lines: Vec<(usize, String)> = samples.iter().enumerate().map(line).collect();
    words::numbered("sample", &lines)
}

/// Why a record is refused, with what was found in it.
pub fn refused(record: &[u8], refusal: Refusal) -> String {
    form::report(refusal, &form::found(record, &RECORD, refusal))
}

/// The names of the signals that are 1 in a sample.
fn high(sample: u64, names: &Names) -> String {
    let is_high = |signal: &u8| sample & (1 << signal) != 0;
    let high = (0..SIGNALS).filter(is_high);
    let high: Vec<String> = high.map(|signal| names.name(signal)).collect();
    match high.is_empty() {
        true => "-".to_string(),
        false => high.join(" "),
    }
}
