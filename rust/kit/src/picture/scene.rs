//! What a picture shows, as the judge answered it.
use crate::assertion::{Assertion, Operator};
use crate::engine::{Engines, Unjudged};
use crate::names::Names;
use crate::notation;
use crate::verdict::{
    self, implication_words, part_words, unexplained_words, Account, Implication, Verdict,
};
use xistomar::{Level, Refusal};

/// A row of the picture: what it is called, and at which samples it is 1.
#[derive(Clone, Debug, PartialEq, Eq)]
pub struct Trace {
    /// The signal's name, the clock's condition, or what rises or falls.
    pub name: String,
    /// Its value at each sample.
    pub values: Vec<bool>,
}

/// A row for a signal that rises or falls.
#[derive(Clone, Debug, PartialEq, Eq)]
pub struct Change {
    /// Whether it rises.
    pub rises: bool,
    /// `rose(a)` or `fell(a)`, and where it is so.
    pub trace: Trace,
}

/// A row for a `|->`.
#[derive(Clone, Debug, PartialEq, Eq)]
pub struct ImplicationRow {
    /// Its left side and the sign.
    pub name: String,
    /// The samples at which its right side was asked, from where it was reached.
    pub matched: Vec<usize>,
    /// The other samples at which it was reached.
    pub reached: Vec<usize>,
    /// Whether it was reached at the end of the record.
    pub at_end: bool,
}

/// The samples over which the decisive part was asked.
#[derive(Clone, Copy, Debug, PartialEq, Eq)]
pub struct Span {
    /// The sample from which it was asked; the number of samples where that is still to come.
    pub from: usize,
    /// The sample at which it closed; none where it is open.
    pub closed: Option<usize>,
    /// What came of it there: `broken`, `matched` or `held`.
    pub came: &'static str,
}

/// What a picture shows.
#[derive(Clone, Debug, PartialEq, Eq)]
pub struct Scene {
    /// The comment at the head of the assertion's text, which is the picture's title.
    pub comment: Option<String>,
    /// The assertion in the notation.
    pub assertion: String,
    /// Which part was decisive, or why that is not told, in words.
    pub decisive: String,
    /// From where to where it was asked; none where that is not told.
    pub span: Option<Span>,
    /// The time of each sample, such as `15 ns`; empty where it is not known.
    pub times: Vec<String>,
    /// The clocks and where they tick.
    pub clocks: Vec<Trace>,
    /// What the assertion asks to rise or fall, but for what is a clock.
    pub changes: Vec<Change>,
    /// The signals that are shown.
    pub signals: Vec<Trace>,
    /// Whether the record tested the assertion and which `|->` it asked, in words.
    pub tested: String,
    /// Whether every `|->` was asked, where it is told.
    pub asked: Option<bool>,
    /// The signs of the implications.
    pub signs: String,
    /// The `|->`.
    pub implications: Vec<ImplicationRow>,
    /// The levels.
    pub verdict: Verdict,
    /// What the picture is made of: a label and words each, such as `table` and its file's name.
    pub origin: Vec<(String, String)>,
}

impl Scene {
    /// Asks the engines about a table and samples. Comment, times and origin are left empty: they are not
    /// in these.
    pub fn of(
        engines: &mut Engines,
        table: &[u8],
        names: &Names,
        samples: &[u64],
    ) -> Result<Scene, Unjudged> {
        let account = verdict::account(engines, table, names, samples)?;
        let assertion = Assertion::of_table(table)?.tidy();
        let boolean = |index: usize| boolean(&assertion, index, names, samples);
        let change = |index: usize| -> Result<Change, Refusal> {
            Ok(Change {
                rises: assertion.node(index).operator == Operator::Rose,
                trace: boolean(index)?,
            })
        };
        let signal = |number: u8| Trace {
            name: names.name(number),
            values: samples.iter().map(|sample| high(*sample, number)).collect(),
        };
        let explained = account.explained.iter();
        let implications = explained.flat_map(|explained| &explained.implications);
        let implications = implications.map(|implication| row(implication, samples.len()));
        let clocks = assertion.clocks().into_iter().map(boolean);
        Ok(Scene {
            comment: None,
            decisive: why(&account),
            span: span(&account),
            times: Vec::new(),
            tested: implication_words(&account),
            asked: account.judged().asked,
            signs: account.signs,
            implications: implications.collect(),
            assertion: account.assertion,
            clocks: clocks.collect::<Result<_, _>>()?,
            changes: changing(&assertion).map(change).collect::<Result<_, _>>()?,
            signals: shown(&assertion, names).into_iter().map(signal).collect(),
            verdict: account.verdict,
            origin: Vec::new(),
        })
    }

    /// The time of a sample, where it is known.
    pub fn time(&self, sample: usize) -> Option<&str> {
        let time = self.times.get(sample).map(String::as_str);
        time.filter(|time| !time.is_empty())
    }

    /// Whether the time of any sample is known.
    pub fn timed(&self) -> bool {
        (0..self.verdict.samples()).any(|sample| self.time(sample).is_some())
    }
}

/// A boolean of the assertion, and the samples that satisfy it.
fn boolean(
    assertion: &Assertion,
    index: usize,
    names: &Names,
    samples: &[u64],
) -> Result<Trace, Refusal> {
    Ok(Trace {
        name: notation::phrase(assertion, index, names),
        values: verdict::satisfied(assertion, index, samples)?,
    })
}

/// From where to where the decisive part was asked, and what came of it.
fn span(account: &Account) -> Option<Span> {
    let decisive = account.explained.as_ref()?.decisive;
    let came = match (decisive.level, decisive.matched) {
        (_, Some(_)) => "matched",
        (Level::Broken, _) => "broken",
        _ => "held",
    };
    Some(Span {
        from: decisive.from,
        closed: decisive.closed,
        came,
    })
}

/// The decisive part in words, or why it is not told.
fn why(account: &Account) -> String {
    match &account.explained {
        Some(explained) => part_words(account, explained),
        None => unexplained_words(account),
    }
}

/// The row of a `|->` on so many samples.
fn row(implication: &Implication, samples: usize) -> ImplicationRow {
    let Implication { left, matched, .. } = implication;
    let reached = implication.reached.iter().copied();
    let only = |at: &usize| *at < samples && !matched.contains(at);
    ImplicationRow {
        name: format!("{left} {}", implication.operator.sign()),
        matched: matched.clone(),
        reached: reached.filter(only).collect(),
        at_end: implication.reached.contains(&samples),
    }
}

/// The nodes that ask whether a signal rises or falls. One that is a clock has its ticks drawn.
fn changing(assertion: &Assertion) -> impl Iterator<Item = usize> + '_ {
    let clocks = assertion.clocks();
    let nodes = assertion.nodes().iter().enumerate();
    let asks = move |index: usize, operator: Operator| {
        matches!(operator, Operator::Rose | Operator::Fell) && !clocks.contains(&index)
    };
    nodes
        .filter(move |(index, node)| asks(*index, node.operator))
        .map(|(index, _)| index)
}

/// The signals that are shown: the declared ones in their order, then others that are asked about.
fn shown(assertion: &Assertion, names: &Names) -> Vec<u8> {
    let declared = names.all().iter().map(|(_, number)| *number);
    let unnamed = assertion.signals().into_iter();
    let unnamed = unnamed.filter(|number| names.declared(*number).is_none());
    declared.chain(unnamed).collect()
}

/// Whether a signal is 1 in a sample.
fn high(sample: u64, number: u8) -> bool {
    sample.checked_shr(u32::from(number)).unwrap_or_default() & 1 == 1
}
