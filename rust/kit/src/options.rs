//! The words of a command line: files, options with a value, and flags.
use crate::failure::Failure;
use crate::files;
use crate::names;
use crate::words;
use std::ffi::{OsStr, OsString};
use std::path::PathBuf;

/// The options that a command takes.
pub struct Spec {
    /// Options that a value follows, such as `-o`.
    pub values: &'static [&'static str],
    /// Options that stand alone, such as `--json`.
    pub flags: &'static [&'static str],
}

/// A command line that fits its [`Spec`].
#[derive(Debug)]
pub struct Options {
    files: Vec<PathBuf>,
    values: Vec<(&'static str, OsString)>,
    flags: Vec<&'static str>,
    /// Whether a file stands right after an option's value: it may be the rest of that value.
    after_value: bool,
    /// All words, as they were given.
    words: Vec<String>,
}

/// The files that a message names, at most.
const NAMED: usize = 4;

impl Options {
    /// Reads the words. `--name value` and `--name=value` are the same; after `--` every word is a
    /// file. An option that stands twice is a mistake, since one of the two would be lost.
    pub fn read(words: Vec<OsString>, spec: &Spec) -> Result<Options, Failure> {
        let shown = |word: &OsString| word.to_string_lossy().into_owned();
        let mut options = Options {
            words: words.iter().map(shown).collect(),
            files: Vec::new(),
            values: Vec::new(),
            flags: Vec::new(),
            after_value: false,
        };
        let mut words = words.into_iter();
        let mut value_before = false;
        while let Some(word) = words.next() {
            let values = options.values.len();
            match option_name(&word) {
                None => {
                    options.after_value |= value_before;
                    options.files.push(PathBuf::from(word));
                }
                Some("--") => options.files.extend(words.by_ref().map(PathBuf::from)),
                Some(text) => options.take(text, &mut words, spec)?,
            }
            value_before = options.values.len() > values;
        }
        Ok(options)
    }

    /// Takes one option, and its value from the words that follow.
    fn take(
        &mut self,
        text: &str,
        words: &mut impl Iterator<Item = OsString>,
        spec: &Spec,
    ) -> Result<(), Failure> {
        let (name, given) = match text.split_once('=') {
            Some((name, value)) => (name, Some(value)),
            None => (text, None),
        };
        let find = |names: &[&'static str]| names.iter().copied().find(|known| *known == name);
        if self.value(name).is_some() || self.flag(name) {
            return Err(Failure::Usage(format!("{name} is given twice")));
        }
        if let Some(known) = find(spec.values) {
            let value = given.map(OsString::from).or_else(|| words.next());
            let missing = || Failure::Usage(format!("{name} needs a value after it"));
            self.values.push((known, value.ok_or_else(missing)?));
        } else if let Some(known) = find(spec.flags) {
            if given.is_some() {
                return Err(Failure::Usage(format!("{name} takes no value")));
            }
            self.flags.push(known);
        } else {
            return Err(unknown(name, spec));
        }
        Ok(())
    }

    /// The files, where there are as many as `what` names; `what` is for the message.
    pub fn files<const N: usize>(&self, what: [&str; N]) -> Result<&[PathBuf; N], Failure> {
        let given = self.files.len();
        self.files.as_slice().try_into().map_err(|_| {
            let wanted = what.join(" and ");
            Failure::Usage(match given < N {
                true => format!("{wanted} must be given"),
                false => format!(
                    "only {wanted} can be given, and here stand {}",
                    self.named()
                ),
            })
        })
    }

    /// The files, for a message that there are too many.
    fn named(&self) -> String {
        let shown = |path: &PathBuf| words::shortened(&files::shown(path));
        let mut named: Vec<String> = self.files.iter().take(NAMED).map(shown).collect();
        if let more @ 1.. = self.files.len().saturating_sub(NAMED) {
            named.push(format!("{more} more"));
        }
        let named = words::list(&named);
        match self.after_value {
            true => format!("{named}; a value with a blank in it is put in quotes"),
            false => named,
        }
    }

    /// All files, however many.
    pub fn all_files(&self) -> &[PathBuf] {
        &self.files
    }

    /// The value of an option, if it is given.
    pub fn value(&self, name: &str) -> Option<&OsStr> {
        let found = self.values.iter().find(|(known, _)| *known == name)?;
        Some(&found.1)
    }

    /// The value of an option as text, if it is given.
    pub fn text(&self, name: &str) -> Result<Option<&str>, Failure> {
        let unreadable = || Failure::Usage(format!("the value of {name} is not readable text"));
        self.value(name)
            .map(|value| value.to_str().ok_or_else(unreadable))
            .transpose()
    }

    /// All words, as they were given.
    pub fn words(&self) -> &[String] {
        &self.words
    }

    /// Whether a flag is given.
    pub fn flag(&self, name: &str) -> bool {
        self.flags.contains(&name)
    }
}

/// The word as an option, or nothing for a file. A `-` alone is a file's name.
fn option_name(word: &OsStr) -> Option<&str> {
    word.to_str()
        .filter(|text| text.len() > 1 && text.starts_with('-'))
}

/// The message for an option that is not known, with the nearest that is. A command without -o
/// writes to standard output.
fn unknown(name: &str, spec: &Spec) -> Failure {
    let known = spec.values.iter().chain(spec.flags).copied();
    let hint = match name {
        "-o" => ": it writes to standard output, and > FILE puts that in a file".to_string(),
        _ => names::hint(name, known),
    };
    Failure::Usage(format!("{name} is not an option of this command{hint}"))
}
