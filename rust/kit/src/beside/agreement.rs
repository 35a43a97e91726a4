//! Whether an assertion and another file mean the same signals.
use crate::failure::Failure;
use crate::files::shown;
use crate::names::Names;
use crate::words;
use std::collections::BTreeSet;
use std::path::Path;

/// What to do where a record does not mean the signals of an assertion.
pub const RECORD_AGAIN: &str =
    "kit record --names FILE.txt gives each signal the number that the text declares for its name";

/// A signal that is called otherwise in another file, or is not there.
#[derive(Clone, Debug, PartialEq, Eq)]
pub struct Unlike {
    number: u8,
    name: Option<String>,
    other: Option<String>,
}

impl Unlike {
    /// `drop in flush.txt, strobe in run.svw`.
    pub fn words(&self, one: &str, two: &str) -> String {
        let name = self.name.as_deref().unwrap_or("without a name");
        let other = self.other.as_deref().unwrap_or("not there");
        format!("{name} in {one}, {other} in {two}")
    }

    /// Its number.
    pub fn number(&self) -> usize {
        usize::from(self.number)
    }
}

/// The signals of which an assertion and another file disagree: those that both name, and not alike, and
/// those that the assertion asks about and the other does not have.
pub fn unlike(names: &Names, asked: &[u8], other: &Names) -> Vec<Unlike> {
    let named = names.all().iter().map(|(_, number)| number);
    let numbers: BTreeSet<u8> = named.chain(asked).copied().collect();
    let unnamed = names.all().is_empty();
    let differs = |number: &u8| match (names.declared(*number), other.declared(*number)) {
        (Some(name), Some(other)) => name != other,
        // a text that leaves out what is asked about says nothing of it
        (None, Some(_)) => !unnamed && asked.contains(number),
        (_, None) => asked.contains(number),
    };
    let unlike = numbers.into_iter().filter(differs).map(|number| Unlike {
        number,
        name: names.declared(number).map(str::to_string),
        other: other.declared(number).map(str::to_string),
    });
    unlike.collect()
}

/// Asks that an assertion, by the signals that it asks about, and another file mean the same signals; `advice`
/// is what to do where they do not.
pub fn agree(
    (one, names): (&Path, &Names),
    asked: &[u8],
    (two, other): (&Path, &Names),
    advice: &str,
) -> Result<(), Failure> {
    let (one, two) = (shown(one), shown(two));
    let unlike = unlike(names, asked, other);
    let unlike = unlike.iter().map(|it| (it.number(), it.words(&one, &two)));
    let unlike: Vec<(usize, String)> = unlike.collect();
    match unlike.is_empty() {
        true => Ok(()),
        false => Err(Failure::Failed(format!(
            "{one} and {two} do not mean the same signals:\n{}{advice}",
            words::numbered("  signal", &unlike)
        ))),
    }
}
