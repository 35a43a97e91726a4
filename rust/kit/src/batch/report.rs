//! The report on many records.
use super::{Answer, Found, Run};
use crate::files::shown;
use crate::refusals;
use crate::required::Required;
use crate::verdict::Judged;
use std::collections::BTreeMap;
use std::time::Duration;
use xistomar::Level;

/// What is reported.
pub struct Report<'a> {
    /// What was found.
    pub found: &'a Found,
    /// What became of it.
    pub run: &'a Run<'a>,
    /// What is required of the records.
    pub required: Required,
    /// The time for all, finding them included.
    pub whole: Duration,
}

impl Report<'_> {
    /// The counts as an aligned table, and then what else there is to say of all records.
    pub fn table(&self) -> String {
        let mut rows = vec![self.held()];
        rows.extend([Level::Strong, Level::Neutral].map(|level| self.level("  level", level)));
        rows.push(self.level("open, level", Level::Weak));
        rows.push(self.level("broken, level", Level::Broken));
        rows.extend(self.refused());
        let unreadable = self.count(|answer| matches!(answer, Answer::Unreadable(_)));
        rows.push(row("unreadable", unreadable, ""));
        let mismatched = self.count(|answer| matches!(answer, Answer::Mismatched(_)));
        if mismatched > 0 {
            let words = "what stands beside them speaks of other signals, of other bytes, or cannot be read";
            rows.push(row("mismatched", mismatched, words));
        }
        let differ = self.count(|answer| matches!(answer, Answer::Differ(_)));
        if differ > 0 {
            rows.push(row("engines differ", differ, "a defect of Xistomar"));
        }
        rows.push(row("total", self.run.answers.len(), ""));
        rows.push(row("", "", ""));
        rows.extend(self.remarks());
        aligned(&rows)
    }

    fn count(&self, wanted: impl Fn(&Answer) -> bool) -> usize {
        let answers = self.run.answers.iter();
        answers.filter(|answer| wanted(answer)).count()
    }

    fn judged(&self, wanted: impl Fn(&Judged) -> bool) -> usize {
        self.count(|answer| matches!(answer, Answer::Judged(judged) if wanted(judged)))
    }

    fn held(&self) -> Row {
        let held = self.judged(|it| it.judgement.level >= Level::Neutral);
        row("held", held, "")
    }

    fn level(&self, label: &str, level: Level) -> Row {
        let label = format!("{label} {}", level.number());
        let count = self.judged(|it| it.judgement.level == level);
        row(&label, count, level.meaning())
    }

    /// A row for all refused records, and one for each number that was given.
    fn refused(&self) -> Vec<Row> {
        let mut numbers = BTreeMap::new();
        for answer in &self.run.answers {
            if let Answer::Refused(refusal) = answer {
                let (count, _) = numbers
                    .entry(refusal.number())
                    .or_insert((0, refusal.reason()));
                *count += 1;
            }
        }
        let all: usize = numbers.values().map(|(count, _)| count).sum();
        let mut rows = vec![row("refused", all, "")];
        for (number, (count, reason)) in numbers {
            rows.push(row(&format!("  refused {number}"), count, reason));
        }
        rows
    }

    /// How many of those judged never asked some `|->`; the plain engine alone cannot tell.
    fn never_asked(&self, judged: usize) -> Row {
        if self.judged(|it| it.asked.is_none()) > 0 {
            let words = "not told: the plain engine judged alone";
            return row("never asked", "-", words);
        }
        let unasked = self.judged(|it| it.asked == Some(false));
        let words = format!("of {judged} judged: some |-> was never asked");
        row("never asked", unasked, &words)
    }

    /// The rows below the counts.
    fn remarks(&self) -> Vec<Row> {
        let all = self.run.answers.len();
        let judged = self.judged(|_| true);
        let mut rows = Vec::new();
        let untested = self.judged(|it| !it.judgement.tested);
        let words = format!("of {judged} judged: no strong and no weak was reached");
        rows.push(row("not tested", untested, &words));
        rows.push(self.never_asked(judged));
        let unnamed = self.judged(|it| !it.named);
        if unnamed > 0 {
            let words =
                format!("of {judged} judged: nothing says that their signals are the table's");
            rows.push(row("names not known", unnamed, &words));
        }
        if self.required.asks() {
            let reached = self.judged(|it| self.required.reached(*it));
            let words = format!("of {all}: {}", self.required.words());
            rows.push(row("reached", reached, &words));
        }
        if self.found.others > 0 {
            let words = "other files, and links to folders";
            rows.push(row("passed over", self.found.others, words));
        }
        if let Some((time, path)) = self.run.slowest {
            rows.push(row("slowest", time_words(time), &shown(path)));
        }
        let speed = all as f64 / self.whole.as_secs_f64().max(1e-9);
        rows.push(row("speed", format!("{speed:.0}"), "records a second"));
        rows.push(row("time", time_words(self.whole), "in all"));
        rows
    }
}

/// A label, a number with its unit, and words for it.
type Row = (String, String, String);

fn row(label: &str, number: impl ToString, words: &str) -> Row {
    (label.to_string(), number.to_string(), words.to_string())
}

/// The rows under each other, the numbers to the right of their column.
fn aligned(rows: &[Row]) -> String {
    let width = |text: &String| text.chars().count();
    let labels = rows.iter().map(|(label, ..)| width(label)).max();
    let numbers = rows.iter().map(|(_, number, _)| width(number)).max();
    let (labels, numbers) = (labels.unwrap_or_default(), numbers.unwrap_or_default());
    let mut lines = String::new();
    for (label, number, words) in rows {
        let line = format!("{label:<labels$}  {number:>numbers$}  {words}");
        lines.push_str(line.trim_end());
        lines.push('\n');
    }
    lines
}

/// A time in the unit that suits it.
fn time_words(time: Duration) -> String {
    match time.as_secs_f64() {
        short if short < 1e-3 => format!("{:.1} µs", short * 1e6),
        short if short < 1.0 => format!("{:.1} ms", short * 1e3),
        long => format!("{long:.2} s"),
    }
}

/// A line for each record: its name and what became of it.
pub fn list<'a>(found: &'a Found, run: &'a Run) -> impl Iterator<Item = String> + 'a {
    let pairs = found.places.iter().zip(&run.answers);
    pairs.map(|(place, answer)| {
        let name = shown(&place.path);
        match answer {
            Answer::Judged(judged) => {
                format!("{name}: {}{}\n", judged.judgement, unasked(judged))
            }
            Answer::Differ(difference) => format!("{name}: {}\n", difference.line()),
            Answer::Refused(refusal) => format!("{name}: {}\n", refusals::line(*refusal)),
            Answer::Unreadable(why) => format!("{name}: unreadable: {why}\n"),
            Answer::Mismatched(why) => format!("{name}: mismatched: {why}\n"),
        }
    })
}

/// The broken records that are named where that was not required of them, at most. All others are named.
const NAMED: usize = 20;

/// A line for each record that misses what is required, for each of the first others that are broken, for
/// each that is refused, cannot be read or does not fit, and for each on which the engines differ.
pub fn names<'a>(
    found: &'a Found,
    run: &'a Run,
    required: Required,
) -> impl Iterator<Item = String> + 'a {
    let pairs = || found.places.iter().zip(&run.answers);
    let judged = move || {
        pairs().filter_map(|(place, answer)| match answer {
            Answer::Judged(judged) => Some((place, judged)),
            _ => None,
        })
    };
    let missed = judged().filter(move |(_, judged)| !required.reached(**judged));
    let missed = missed.map(|(place, judged)| {
        let (name, line) = (shown(&place.path), judged.judgement);
        let unasked = unasked(judged);
        format!("missed  {name}: {line}{unasked}\n")
    });
    let broken = move || {
        let broken = |judged: &Judged| judged.judgement.level == Level::Broken;
        judged().filter(move |(_, judged)| broken(judged) && required.reached(**judged))
    };
    let more = broken().count().saturating_sub(NAMED);
    let more = (more > 0).then(|| format!("broken  and {more} more, which --list names\n"));
    let broken = broken().take(NAMED);
    let broken = broken.map(|(place, _)| format!("broken  {}\n", shown(&place.path)));
    let others = pairs().filter_map(|(place, answer)| other(&shown(&place.path), answer));
    let mut others: Vec<(u8, String)> = others.collect();
    others.sort_by_key(|(rank, _)| *rank);
    let named = missed.chain(broken).chain(more);
    named.chain(others.into_iter().map(|(_, line)| line))
}

/// The line for a record that was not judged, and its place among such lines.
fn other(name: &str, answer: &Answer) -> Option<(u8, String)> {
    Some(match answer {
        Answer::Judged(_) => return None,
        Answer::Refused(it) => (0, format!("refused {}  {name}\n", it.number())),
        Answer::Unreadable(why) => (1, format!("unreadable  {name}: {why}\n")),
        Answer::Mismatched(why) => (2, format!("mismatched  {name}: {why}\n")),
        Answer::Differ(it) => (3, format!("{}  {name}\n", it.line())),
    })
}

/// That some `|->` was never asked, where it is told.
fn unasked(judged: &Judged) -> &'static str {
    match judged.asked {
        Some(false) => ", a |-> never asked",
        _ => "",
    }
}
