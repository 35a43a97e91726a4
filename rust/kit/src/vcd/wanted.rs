//! The signals that a record is to have, by name, path and number.
use crate::failure::Failure;
use crate::files;
use crate::names::{begins_name, hint, in_name, Names, NAMES_HAVE, SIGNALS};
use crate::words;
use std::path::Path;

/// A signal that is asked for: `NAME=PATH` and the number that it gets.
#[derive(Clone, Debug, PartialEq, Eq)]
pub struct Wanted {
    /// The name.
    pub name: String,
    /// The path as it was given, or the constant.
    pub path: String,
    /// The signal's number in the record.
    pub number: u8,
}

/// Reads `NAME=PATH,NAME=PATH,..`. Without names the first is signal 0, the next signal 1 and so on.
pub fn wanted(list: &str, names: Option<&Names>) -> Result<Vec<Wanted>, Failure> {
    let mut taken = Names::none();
    let mut all = Vec::new();
    for (place, item) in list.split(',').enumerate() {
        let (name, path) = pair(item)?;
        let number = match names {
            None => u8::try_from(place).unwrap_or(SIGNALS),
            Some(names) => names.number(name).ok_or_else(|| undeclared(name, names))?,
        };
        if number >= SIGNALS {
            let words = "--signals has more than 64 signals, and a sample has 64";
            return Err(Failure::Usage(words.to_string()));
        }
        taken
            .declare(name, number)
            .map_err(|_| Failure::Usage(format!("--signals has the name {name} twice")))?;
        let (name, path) = (name.to_string(), path.to_string());
        all.push(Wanted { name, path, number });
    }
    Ok(all)
}

/// Asks that every signal that a text declares is wanted: one that is forgotten would be 0.
pub fn all_wanted(wanted: &[Wanted], text: &Path, names: &Names) -> Result<(), Failure> {
    let forgotten = |(_, number): &&(String, u8)| wanted.iter().all(|w| w.number != *number);
    let forgotten: Vec<_> = names.all().iter().filter(forgotten).collect();
    let [(first, _), more @ ..] = forgotten.as_slice() else {
        return Ok(());
    };
    let called = forgotten
        .iter()
        .map(|(name, number)| format!("{name} (signal {number})"));
    let called = words::list(&called.collect::<Vec<_>>());
    let them = if more.is_empty() { "it" } else { "them" };
    let text = files::shown(text);
    Err(Failure::Failed(format!(
        "{text} declares {called}, and --signals does not choose {them}: add {first}=PATH, or \
         {first}=0 for a signal that is 0 in every sample"
    )))
}

/// Parts `NAME=PATH`.
fn pair(item: &str) -> Result<(&str, &str), Failure> {
    let parts = item.split_once('=');
    let (name, path) = parts.map_or((item.trim(), ""), |(name, path)| (name.trim(), path.trim()));
    let wrong = |words: String| Err(Failure::Usage(format!("--signals: {words}")));
    if parts.is_none() || path.is_empty() {
        return wrong(format!(
            "'{}' is not NAME=PATH, as in ack=top.ack",
            item.trim()
        ));
    }
    if !name.starts_with(begins_name) || !name.chars().all(in_name) {
        return wrong(format!("'{name}' is no name: {NAMES_HAVE}"));
    }
    Ok((name, path))
}

fn undeclared(name: &str, names: &Names) -> Failure {
    let hint = hint(name, names.all().iter().map(|(known, _)| known.as_str()));
    Failure::Failed(format!(
        "the text of --names declares no signal {name}{hint}"
    ))
}
