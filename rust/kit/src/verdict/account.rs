//! All that is said of a record that was judged, before it is put into words.
use super::decisive::{decisive, Decisive};
use super::implications::{implications, Implication};
use super::{verdict, Judged, Verdict};
use crate::assertion::{Assertion, Expanded, Operator};
use crate::engine::{Engine, Engines, Unjudged};
use crate::names::Names;
use crate::notation::phrase;
use crate::once::Once;
use xistomar::Refusal;

/// A record's verdict with what explains it; the parts of the assertion in the notation.
#[derive(Clone, Debug)]
pub struct Account {
    /// The judgement, and the level after each sample.
    pub verdict: Verdict,
    /// The time of each sample; empty where they are not known.
    pub times: Vec<String>,
    /// Whether the assertion and the record are known to mean the same signals.
    pub named: bool,
    /// The engines that judged.
    pub engine: Engine,
    /// The fast engine's refusal, where the plain one judged alone for that.
    pub past: Option<Refusal>,
    /// The assertion.
    pub assertion: String,
    /// The signals that it asks about, with their names.
    pub signals: Vec<(u8, String)>,
    /// The signs of its implications, `|-> or |=>`; empty where it has none.
    pub signs: String,
    /// What it asks at the first sample only, if anything.
    pub once: Option<Once>,
    /// What the rows of the fast engine tell, where it judged.
    pub explained: Option<Explained>,
}

/// What explains a level.
#[derive(Clone, Debug)]
pub struct Explained {
    /// The implications of the assertion, in the order of the table.
    pub implications: Vec<Implication>,
    /// The decisive part.
    pub decisive: Decisive,
    /// The decisive part under its clock.
    pub part: String,
    /// The operator of the decisive part.
    pub operator: Operator,
    /// Whether the decisive part is all of the assertion.
    pub whole: bool,
}

/// Judges the samples by a table and explains the level, as far as its engines tell. A refusal is the
/// table's or, above 63 samples, the record's.
pub fn account(
    engines: &mut Engines,
    table: &[u8],
    names: &Names,
    samples: &[u64],
) -> Result<Account, Unjudged> {
    let verdict = verdict(engines, table, samples)?;
    let assertion = Assertion::of_table(table)?;
    let explained = match engines.rows() {
        Some(_) => {
            let implications = implications(table, names, samples)?;
            let expanded = Expanded::of(table)?;
            Some(explained(
                &expanded,
                names,
                samples,
                &verdict,
                implications,
            )?)
        }
        None => None,
    };
    let signals = assertion.signals().into_iter();
    let operators: Vec<Operator> = assertion.nodes().iter().map(|it| it.operator).collect();
    Ok(Account {
        verdict,
        times: Vec::new(),
        named: false,
        engine: engines.engine(),
        past: engines.past(),
        assertion: phrase(&assertion, assertion.root(), names),
        signals: signals.map(|signal| (signal, names.name(signal))).collect(),
        signs: Operator::signs(&operators),
        once: Once::of(&assertion, names),
        explained,
    })
}

/// What the fast engine's rows tell of an assertion that it accepts, and of its implications.
fn explained(
    expanded: &Expanded,
    names: &Names,
    samples: &[u64],
    verdict: &Verdict,
    implications: Vec<Implication>,
) -> Result<Explained, Refusal> {
    let decisive = decisive(expanded, samples, verdict)?;
    let assertion = expanded.given();
    let part = assertion.part(decisive.node);
    Ok(Explained {
        implications,
        decisive,
        part: phrase(&part, part.root(), names),
        operator: assertion.node(decisive.node).operator,
        whole: part.table() == assertion.tidy().table(),
    })
}

impl Account {
    /// `sample 4`, and its time where that is known: `sample 4 (55 ns)`.
    pub fn sample(&self, sample: usize) -> String {
        match self.times.get(sample) {
            Some(time) => format!("sample {sample} ({time})"),
            None => format!("sample {sample}"),
        }
    }

    /// What is held against the caller's requirements.
    pub fn judged(&self) -> Judged {
        let all = |explained: &Explained| explained.implications.iter().all(Implication::asked);
        Judged {
            judgement: self.verdict.judgement,
            asked: match &self.explained {
                Some(explained) => Some(all(explained)),
                None => self.signs.is_empty().then_some(true),
            },
            named: self.named,
        }
    }
}
