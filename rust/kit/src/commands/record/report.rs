//! What `kit record` says when it is done.
use crate::beside;
use crate::files;
use crate::vcd::{Keep, Plan, Run, Taken, Windows};
use crate::words;
use std::path::{Path, PathBuf};

/// What was recorded, for a reader.
pub fn report(output: &Path, plan: &Plan, run: &Run, taken: &Taken) -> String {
    let output = files::shown(output);
    let count = words::count(taken.samples.len(), "sample");
    let span = span(plan, &taken.times);
    let comma = if span.is_empty() { "" } else { ", " };
    let signals = beside::signal_lines(&beside::signals(plan));
    let guessed = guessed(plan, run, taken.guessed);
    let outside = outside(plan, &taken.times);
    format!("{output}: {count}{comma}{span}\n{outside}{signals}{guessed}")
}

/// What was recorded in windows, for a reader.
pub fn windows_report(outputs: &[PathBuf], plan: &Plan, windows: Windows, run: &Run) -> String {
    let shown = |output: Option<&PathBuf>| output.map_or(String::new(), |path| files::shown(path));
    let (first, last) = (shown(outputs.first()), shown(outputs.last()));
    let times: Vec<u128> = run.samples.iter().map(|sample| sample.time).collect();
    let (all, span) = (words::count(times.len(), "sample"), span(plan, &times));
    let lines = match outputs {
        [_] => format!("{first}: 1 record, {all}, {span}\n"),
        _ => format!(
            "{first} to {last}: {}, {all}, {span}\n{} each, a record begins {} after the one before, \
             and the last ends with the last sample\n",
            words::count(outputs.len(), "record"),
            words::count(windows.count, "sample"),
            words::count(windows.step(), "sample"),
        ),
    };
    let signals = beside::signal_lines(&beside::signals(plan));
    format!("{lines}{signals}{}", guessed(plan, run, run.guessed()))
}

/// A line for each sample with its time, aligned.
pub fn times(plan: &Plan, taken: &Taken) -> String {
    let times = taken.times.iter().map(|time| plan.scale.show(*time));
    words::numbered("sample", &(0..).zip(times).collect::<Vec<_>>())
}

/// A line for each record of a window with its times.
pub fn windows_times(outputs: &[PathBuf], plan: &Plan, records: &[Taken]) -> String {
    let line = |(output, taken): (&PathBuf, &Taken)| {
        let output = files::shown(output);
        format!("{output}  {}\n", span(plan, &taken.times))
    };
    outputs.iter().zip(records).map(line).collect()
}

/// From the first of some times to the last.
fn span(plan: &Plan, times: &[u128]) -> String {
    words::span(times, |time| plan.scale.show(*time)).unwrap_or_default()
}

/// That the time of `--around` is before or after all samples, where it is.
fn outside(plan: &Plan, times: &[u128]) -> String {
    let Keep::Around(around, _) = plan.keep else {
        return String::new();
    };
    let shown = plan.scale.show(around);
    let [all_before, all_after] = [
        times.iter().all(|it| *it < around),
        times.iter().all(|it| *it > around),
    ];
    match (all_before, all_after) {
        (true, _) => format!("no sample is at {shown} or later\n"),
        (_, true) => format!("no sample is at {shown} or before\n"),
        _ => String::new(),
    }
}

/// How many values were unknown, where they are read as 0 or 1.
fn guessed(plan: &Plan, run: &Run, guessed: usize) -> String {
    let Some(value) = plan.unknown.map(u8::from) else {
        return String::new();
    };
    let count = words::count(guessed, "unknown value");
    let were = if guessed == 1 { "was" } else { "were" };
    let clock = match run.clock_read {
        0 => String::new(),
        read => format!(", and so {} of the clock", words::count(read, "value")),
    };
    format!("{count} {were} read as {value}{clock}\n")
}
