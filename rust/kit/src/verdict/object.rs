//! The verdict as one JSON object.
//!
//! Every key is always there. Samples count from 0.
//!
//! | key | value |
//! |---|---|
//! | `line` | the program's line, `level 1 tested yes` or `refused 9 at 3` |
//! | `engine` | the engines that judged, or that were asked where the record is refused: `both`, `fast` or `plain` |
//! | `level`, `name`, `meaning` | the level, 0 to 3, its name and its meaning in words |
//! | `tested` | whether the record tested the assertion |
//! | `implications` | each `\|->`: its `node` in the table, the `part` in the notation and its `left` side, the samples from which it was `reached` (the number of samples is the end of the record), those at which its right side was then asked (`matched`), and whether it was `asked`, that is whether there are any |
//! | `once` | whether something is asked at the first sample only, since no `until` stands above it |
//! | `assertion` | the assertion in the notation |
//! | `signals` | the signals that it asks about, each with its `number` and `name` |
//! | `names` | whose the names are: `agreed`, `record`, `text` or `none` |
//! | `samples` | how many samples the record has |
//! | `times` | the time of each, or none where they are not known |
//! | `levels` | the level after 0, 1, .. samples, up to all of them |
//! | `closed` | the sample at which the level closed, or `null` where it is open |
//! | `decisive` | the decisive part: its `node` in the table, the `part` in the notation, the sample that it was asked `from`, its own `level` there, whether it stands under an odd number of `not`s (`turned`), the sample at which it `closed` or `null`, and the first and last sample of the match of a strong or weak part that `matched`, or `null` |
//! | `required` | what was asked for: the `level` or `null`, `tested`, `asked` and `named`, with whether all of it is `reached` |
//! | `refused` | `null`, or of a refusal the `file` (`table` or `record`), the `number`, the `node` and the `reason` |
//! | `table`, `record` | each file's name and `sha256`, which is `null` where the file is longer than any that is accepted |
//! | `recorded` | what the file beside the record says but for the times, or `null` where there is none |
//! | `kit` | the version of the kit |
//!
//! Where the plain engine judged alone, `decisive` is `null`, and so is `implications` if the assertion has any. On a
//! refusal `level`, `name`, `meaning`, `tested`, `once`, `assertion`, `names`, `samples`, `closed`, `decisive` and
//! `recorded` are `null`, the lists are empty and nothing is reached.
use super::account::{Account, Explained};
use super::implications::Implication;
use super::Refused;
use crate::beside::{Identity, Signal};
use crate::engine::Engine;
use crate::origin::{Origin, Read};
use crate::required::Required;
use serde::Serialize;

/// The object.
#[derive(Serialize)]
pub struct Object<'a> {
    line: String,
    engine: &'static str,
    level: Option<u8>,
    name: Option<String>,
    meaning: Option<&'static str>,
    tested: Option<bool>,
    implications: Option<Vec<Implied<'a>>>,
    once: Option<bool>,
    assertion: Option<&'a str>,
    signals: Vec<Named<'a>>,
    names: Option<&'static str>,
    samples: Option<usize>,
    times: &'a [String],
    levels: Vec<u8>,
    closed: Option<usize>,
    decisive: Option<Part<'a>>,
    required: Wanted,
    refused: Option<Why>,
    table: &'a Read,
    record: &'a Read,
    recorded: Option<Known<'a>>,
    kit: &'static str,
}

#[derive(Serialize)]
struct Implied<'a> {
    node: usize,
    part: &'a str,
    left: &'a str,
    reached: &'a [usize],
    matched: &'a [usize],
    asked: bool,
}

#[derive(Serialize)]
struct Named<'a> {
    number: u8,
    name: &'a str,
}

#[derive(Serialize)]
struct Part<'a> {
    node: usize,
    part: &'a str,
    from: usize,
    level: u8,
    turned: bool,
    closed: Option<usize>,
    matched: Option<(usize, usize)>,
}

#[derive(Serialize)]
struct Wanted {
    level: Option<u8>,
    tested: bool,
    asked: bool,
    named: bool,
    reached: bool,
}

#[derive(Serialize)]
struct Why {
    file: &'static str,
    number: u8,
    node: usize,
    reason: &'static str,
}

#[derive(Serialize)]
struct Known<'a> {
    waveform: &'a Identity,
    signals: &'a [Signal],
    options: &'a [String],
    kit: &'a str,
}

/// The object for a record that was judged.
pub fn object<'a>(account: &'a Account, required: Required, origin: &'a Origin) -> Object<'a> {
    let judgement = account.verdict.judgement;
    Object {
        line: judgement.to_string(),
        engine: account.engine.name(),
        level: Some(judgement.level.number()),
        name: Some(judgement.level.to_string()),
        meaning: Some(judgement.level.meaning()),
        tested: Some(judgement.tested),
        implications: implications(account),
        once: Some(account.once.is_some()),
        assertion: Some(&account.assertion),
        signals: account.signals.iter().map(named).collect(),
        names: Some(origin.naming.name()),
        samples: Some(account.verdict.samples()),
        times: origin.times(),
        levels: account
            .verdict
            .levels
            .iter()
            .map(|it| it.number())
            .collect(),
        closed: account.verdict.closed(),
        decisive: account.explained.as_ref().map(part),
        required: wanted(required, required.reached(account.judged())),
        refused: None,
        table: &origin.table,
        record: &origin.record,
        recorded: known(origin),
        kit: crate::VERSION,
    }
}

/// The object for a refusal of the table or the record.
pub fn refusal_object<'a>(
    refused: Refused,
    engine: Engine,
    required: Required,
    [table, record]: [&'a Read; 2],
) -> Object<'a> {
    let refusal = refused.refusal();
    Object {
        line: refused.line(),
        engine: engine.name(),
        level: None,
        name: None,
        meaning: None,
        tested: None,
        implications: Some(vec![]),
        once: None,
        assertion: None,
        signals: vec![],
        names: None,
        samples: None,
        times: &[],
        levels: vec![],
        closed: None,
        decisive: None,
        required: wanted(required, false),
        refused: Some(Why {
            file: refused.file(),
            number: refusal.number(),
            node: refusal.node(),
            reason: refusal.reason(),
        }),
        table,
        record,
        recorded: None,
        kit: crate::VERSION,
    }
}

impl Object<'_> {
    /// The object on one line.
    pub fn line(&self) -> String {
        // strings, numbers and truths alone, which are always written
        let json = serde_json::to_string(self).unwrap_or_default();
        format!("{json}\n")
    }
}

fn named((number, name): &(u8, String)) -> Named<'_> {
    let number = *number;
    Named { number, name }
}

fn implications(account: &Account) -> Option<Vec<Implied<'_>>> {
    match &account.explained {
        Some(explained) => Some(explained.implications.iter().map(implied).collect()),
        None => account.signs.is_empty().then(Vec::new),
    }
}

fn implied(implication: &Implication) -> Implied<'_> {
    Implied {
        node: implication.node,
        part: &implication.part,
        left: &implication.left,
        reached: &implication.reached,
        matched: &implication.matched,
        asked: implication.asked(),
    }
}

fn part(explained: &Explained) -> Part<'_> {
    let Explained { decisive, part, .. } = explained;
    Part {
        node: decisive.node,
        part,
        from: decisive.from,
        level: decisive.level.number(),
        turned: decisive.turned,
        closed: decisive.closed,
        matched: decisive.matched,
    }
}

fn wanted(required: Required, reached: bool) -> Wanted {
    Wanted {
        level: required.level,
        tested: required.tested,
        asked: required.asked,
        named: required.named,
        reached,
    }
}

fn known(origin: &Origin) -> Option<Known<'_>> {
    let recorded = origin.recorded.as_ref()?;
    Some(Known {
        waveform: &recorded.waveform,
        signals: &recorded.signals,
        options: &recorded.options,
        kit: &recorded.kit,
    })
}
