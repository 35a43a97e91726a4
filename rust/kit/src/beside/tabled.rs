//! What `kit table` writes beside a table.
use super::{Beside, Identity};
use crate::names::Names;
use crate::origin;
use serde::{Deserialize, Serialize};

/// What is known of a table.
#[derive(Clone, Debug, PartialEq, Eq, Serialize, Deserialize)]
pub struct Tabled {
    written_by: String,
    /// The version of the kit that wrote it.
    pub kit: String,
    /// The table.
    pub table: Identity,
    /// The text that it was made of.
    pub text: Identity,
    /// The comment at the head of the text.
    pub comment: Option<String>,
    /// The signals that the text declares.
    pub signals: Vec<Declared>,
}

/// A signal that a text declares.
#[derive(Clone, Debug, PartialEq, Eq, Serialize, Deserialize)]
pub struct Declared {
    /// Its number, 0 to 63.
    pub number: u8,
    /// Its name.
    pub name: String,
}

impl Beside for Tabled {
    const WRITER: &'static str = "kit table";
    const WHAT: &'static str = "table";

    fn written_by(&self) -> &str {
        &self.written_by
    }

    fn about(&self) -> &Identity {
        &self.table
    }

    fn named(&self) -> Vec<(u8, &str)> {
        let signals = self.signals.iter();
        signals.map(|it| (it.number, it.name.as_str())).collect()
    }

    fn misfit(&self, bytes: &[u8]) -> Option<&'static str> {
        let names = self.names();
        let mut asked = origin::asked(bytes).into_iter();
        let unnamed = asked.any(|number| names.declared(number).is_none());
        unnamed.then_some("it does not name every signal that the table asks about")
    }

    fn texts(&self) -> Vec<&str> {
        let texts = [&self.kit, &self.text.file, &self.text.sha256].into_iter();
        texts.chain(&self.comment).map(String::as_str).collect()
    }
}

impl Tabled {
    /// What is known of a table that was just made of a text.
    pub fn of(table: Identity, text: Identity, comment: Option<String>, names: &Names) -> Tabled {
        let signals = names.all().iter().cloned();
        let signals = signals.map(|(name, number)| Declared { number, name });
        Tabled {
            written_by: Tabled::WRITER.to_string(),
            kit: crate::VERSION.to_string(),
            table,
            text,
            comment,
            signals: signals.collect(),
        }
    }
}
