//! What a verdict is of: the files, the names of the signals and the times of the samples.
use crate::assertion::Assertion;
use crate::beside::{self, Beside, Recorded, RECORD_AGAIN};
use crate::failure::Failure;
use crate::files::{self, shown};
use crate::names::Names;
use crate::sha256;
use crate::source::{Source, Text};
use serde::Serialize;
use std::path::Path;

/// The label of the line with the times of the samples.
pub const TIMES: &str = "Times";

/// A file that was read.
#[derive(Clone, Debug, PartialEq, Eq, Serialize)]
pub struct Read {
    /// Its name as it was given.
    pub file: String,
    /// The SHA-256 of its bytes; none where they were not all read, since its beginning is refused.
    pub sha256: Option<String>,
}

impl Read {
    /// A table or a record.
    pub fn of(path: &Path, bytes: &[u8]) -> Read {
        let whole = (bytes.len() as u64) < files::MOST;
        Read {
            file: shown(path),
            sha256: whole.then(|| sha256::of(bytes)),
        }
    }

    fn words(&self) -> String {
        match &self.sha256 {
            Some(sha256) => format!("{}, SHA-256 {sha256}", self.file),
            None => self.file.clone(),
        }
    }
}

/// Whose names the signals of a verdict have.
#[derive(Clone, Copy, Debug, PartialEq, Eq)]
pub enum Naming {
    /// A text's, which the record's agree with.
    Agreed,
    /// The record's: the table has none.
    Record,
    /// A text's: those of the record are not known.
    Text,
    /// There are none.
    Nobody,
}

impl Naming {
    /// The word for it in an object.
    pub fn name(self) -> &'static str {
        match self {
            Naming::Agreed => "agreed",
            Naming::Record => "record",
            Naming::Text => "text",
            Naming::Nobody => "none",
        }
    }
}

/// What a verdict is of.
#[derive(Clone, Debug, PartialEq, Eq)]
pub struct Origin {
    /// The table, or the text that it is written as.
    pub table: Read,
    /// The text that names its signals, if one does.
    pub text: Option<Text>,
    /// The record.
    pub record: Read,
    /// What is known of the record.
    pub recorded: Option<Recorded>,
    /// The names of the signals.
    pub names: Names,
    /// Whose they are.
    pub naming: Naming,
}

impl Origin {
    /// What is known of a record that is accepted, for a verdict by a table that is too. Where they do not
    /// mean the same signals there is no verdict.
    pub fn of(
        (table, source): (&Path, &Source),
        (record, bytes): (&Path, &[u8]),
    ) -> Result<Origin, Failure> {
        let recorded: Option<Recorded> = beside::known(record, bytes)?;
        let other = recorded.as_ref().map(Recorded::names);
        if let Some(other) = &other {
            let asked = asked(&source.table);
            beside::agree(
                (table, &source.names),
                &asked,
                (record, other),
                RECORD_AGAIN,
            )?;
        }
        let (naming, names) = match (&source.text, other) {
            (Some(_), Some(other)) => (Naming::Agreed, source.names.within(&other)),
            (Some(_), None) => (Naming::Text, source.names.clone()),
            (None, Some(other)) => (Naming::Record, other),
            (None, None) => (Naming::Nobody, Names::none()),
        };
        Ok(Origin {
            table: source.read.clone(),
            text: source.text.clone(),
            record: Read::of(record, bytes),
            recorded,
            names,
            naming,
        })
    }

    /// The time of each sample; empty where they are not known.
    pub fn times(&self) -> &[String] {
        let recorded = self.recorded.as_ref();
        recorded.map_or(&[], |recorded| recorded.times.as_slice())
    }

    /// What a verdict is of, in lines: a label, and words for it.
    pub fn lines(&self) -> Vec<(&'static str, String)> {
        let mut lines = vec![("Table", self.table.words())];
        if let Some(Text::Beside(text)) = &self.text {
            lines.push(("Text", text.words()));
        }
        lines.push(("Record", self.record.words()));
        if let Some(recorded) = &self.recorded {
            lines.push(("Waveform", recorded.waveform.words()));
            lines.push(("Signals", signals(recorded)));
            if !recorded.times.is_empty() {
                lines.push((TIMES, recorded.times.join(", ")));
            }
        }
        lines.push(("Names", self.naming_words()));
        lines.push(("Kit", self.kit_words()));
        lines
    }

    /// The lines as a block below the words of a verdict.
    pub fn words(&self) -> String {
        let lines = self.lines().into_iter();
        let lines: String = lines
            .map(|(label, words)| format!("{label}: {words}.\n"))
            .collect();
        format!("\n{lines}")
    }

    fn naming_words(&self) -> String {
        let (table, record) = (&self.table.file, &self.record.file);
        let text = match &self.text {
            Some(Text::Given(text)) => shown(text),
            Some(Text::Beside(text)) => text.file.clone(),
            None => String::new(),
        };
        let unknown = format!("not known of the record, for there is no {record}.json");
        match self.naming {
            Naming::Agreed => format!("those of {text}, and the record has the same"),
            Naming::Record => {
                format!(
                    "the record's; {table} has none, so nothing says that it means these signals"
                )
            }
            Naming::Text => format!("those of {text}; {unknown}"),
            Naming::Nobody => format!("{table} has none; {unknown}"),
        }
    }

    fn kit_words(&self) -> String {
        let version = crate::VERSION;
        match &self.recorded {
            Some(recorded) => format!("{version}; the record was made by {}", recorded.kit),
            None => version.to_string(),
        }
    }
}

/// `0 ack from bench.ack, 1 drop from bench.drop`.
fn signals(recorded: &Recorded) -> String {
    let signals = recorded.signals.iter();
    let signals = signals.map(|it| format!("{} {} from {}", it.number, it.name, it.from));
    signals.collect::<Vec<_>>().join(", ")
}

/// The signals that a table asks about; none of one that is refused.
pub fn asked(table: &[u8]) -> Vec<u8> {
    let assertion = Assertion::of_table(table);
    assertion.map_or(Vec::new(), |assertion| assertion.signals())
}
