//! Where a command's result goes: the value of `-o`, and writing files so that nothing is destroyed.
//!
//! A command writes files of one ending alone. What stands at a name already is written over only where
//! the same command wrote it, and a file is there whole or not at all.
mod whole;

use crate::beside::{self, Beside};
use crate::console::Console;
use crate::failure::Failure;
use crate::files::{self, shown};
use crate::options::Options;
use std::fs;
use std::path::{Path, PathBuf};
pub use whole::{write_whole, Whole};

/// What a command writes.
pub struct Kind {
    /// The command.
    pub command: &'static str,
    /// What it writes, for messages: `a table`.
    pub what: &'static str,
    /// The ending of its files: `.svt`.
    pub ending: &'static str,
    /// Whether it is text, so that standard output can take it.
    pub text: bool,
    /// Whether the command wrote the file that stands at this path.
    pub own: fn(&Path) -> bool,
    /// Where it writes another file beside it, whether it wrote the one that stands beside this path.
    pub beside: Option<fn(&Path) -> bool>,
}

/// The option that goes with `-o`: any file but an input is written over.
pub const FORCE: &str = "--force";

/// Where a result goes.
#[derive(Clone, Debug, PartialEq, Eq)]
pub enum Output {
    /// To a file; `force` says that it may be any file but an input.
    File {
        /// Its name.
        path: PathBuf,
        /// Whether `--force` is given.
        force: bool,
    },
    /// To standard output.
    Standard,
}

impl Output {
    /// The value of `-o` for a command that writes no text, and whether `--force` is given.
    pub fn file(options: &Options, kind: &Kind) -> Result<(PathBuf, bool), Failure> {
        match Output::of(options, kind)? {
            Output::File { path, force } => Ok((path, force)),
            Output::Standard => Err(no_text(kind)),
        }
    }

    /// The value of `-o`, which must be given and fit what the command writes.
    pub fn of(options: &Options, kind: &Kind) -> Result<Output, Failure> {
        let path = options.value("-o").map(PathBuf::from);
        let missing = || Failure::Usage("-o FILE must say where the result goes".to_string());
        let path = path.ok_or_else(missing)?;
        let force = options.flag(FORCE);
        let Kind { what, ending, .. } = kind;
        let name = shown(&path);
        if path.as_os_str() == "-" {
            return match kind.text {
                true => Ok(Output::Standard),
                false => Err(no_text(kind)),
            };
        }
        if !force && !ends_in(&path, ending) {
            return Err(Failure::Usage(format!(
                "-o {name}: the name of {what} ends in {ending}; {FORCE} writes it under any name"
            )));
        }
        Ok(Output::File { path, force })
    }

    /// Asks that the file may be written, before any work is done for it.
    pub fn may_write(&self, kind: &Kind, inputs: &[&Path]) -> Result<(), Failure> {
        match self {
            Output::File { path, force } => may_write(path, *force, kind, inputs),
            Output::Standard => Ok(()),
        }
    }

    /// Writes a text.
    pub fn write(&self, text: &str, console: &mut Console) -> Result<(), Failure> {
        match self {
            Output::File { path, .. } => write_whole(&[(path.clone(), text.as_bytes().to_vec())]),
            Output::Standard => console.say(text),
        }
    }

    /// The name of the file.
    pub fn shown(&self) -> String {
        match self {
            Output::File { path, .. } => shown(path),
            Output::Standard => "standard output".to_string(),
        }
    }
}

/// The failure where standard output is to take what is no text.
fn no_text(kind: &Kind) -> Failure {
    let Kind { what, ending, .. } = kind;
    Failure::Usage(format!(
        "{what} is no text, which standard output is for: -o names a file that ends in {ending}"
    ))
}

/// Whether a file's name has an ending, and more before it.
pub fn ends_in(path: &Path, ending: &str) -> bool {
    let name = path.file_name().unwrap_or_default().as_encoded_bytes();
    name.len() > ending.len() && name.ends_with(ending.as_bytes())
}

/// Asks that a file may be written: it is none of the inputs, and it is not there or the same command
/// wrote it, or `force` is given. So for the one that is written beside it.
pub fn may_write(path: &Path, force: bool, kind: &Kind, inputs: &[&Path]) -> Result<(), Failure> {
    let may = |path: &Path, own: &dyn Fn() -> bool| {
        untouched(path, inputs)?;
        replaced(path, kind, &|| force || own())
    };
    may(path, &|| (kind.own)(path))?;
    match kind.beside {
        Some(own) => may(&beside::place(path), &|| own(path)),
        None => Ok(()),
    }
}

/// Asks that a file is none of the inputs, and stands beside none: these are never written over.
fn untouched(path: &Path, inputs: &[&Path]) -> Result<(), Failure> {
    let same = |input: &Path| match (fs::canonicalize(input), fs::canonicalize(path)) {
        (Ok(input), Ok(path)) => input == path,
        _ => false,
    };
    let read = |input: &&Path| same(input) || same(&beside::path(input));
    match inputs.iter().any(read) {
        true => {
            let words = format!("-o {} would write over an input", shown(path));
            Err(Failure::Usage(words))
        }
        false => Ok(()),
    }
}

/// Asks that what stands at a path, if anything, is a file that may be written over.
fn replaced(path: &Path, kind: &Kind, may: &dyn Fn() -> bool) -> Result<(), Failure> {
    let cannot = |why: &str| {
        let name = shown(path);
        Err(Failure::Failed(format!("{name}: cannot be written: {why}")))
    };
    let Ok(about) = fs::metadata(path) else {
        return match fs::symlink_metadata(path).is_ok_and(|about| about.is_symlink()) {
            true => cannot("this is a link to a file that is not there"),
            false => Ok(()),
        };
    };
    match about.is_file() {
        false if about.is_dir() => cannot("this is a folder"),
        false => cannot("this is not an ordinary file"),
        true if may() => Ok(()),
        true => cannot(&format!(
            "it is there already, and kit {} did not write it, or it was changed since; another name \
             keeps it, {FORCE} writes over it",
            kind.command
        )),
    }
}

/// Whether the kit wrote the file at this path: what stands beside it says so, of these very bytes.
pub fn own<T: Beside>(path: &Path) -> bool {
    let bytes = standing(path, files::MOST);
    beside::known::<T>(path, &bytes).is_ok_and(|known| known.is_some())
}

/// Whether the kit wrote what stands beside this path, of whatever bytes: nothing more is in it.
pub fn own_beside<T: Beside>(path: &Path) -> bool {
    let known = beside::read::<T>(path).ok().flatten();
    let bytes = known.and_then(|known| beside::bytes(path, &known).ok());
    bytes.is_some_and(|bytes| standing(&beside::place(path), beside::LONGEST) == bytes)
}

/// A file, and before it the one that stands beside it: where the writing is cut off between the two, the
/// one beside speaks of other bytes, and that is noticed.
pub fn with_beside<T: Beside>(
    path: &Path,
    bytes: Vec<u8>,
    known: &T,
) -> Result<[(PathBuf, Vec<u8>); 2], Failure> {
    Ok([
        (beside::place(path), beside::bytes(path, known)?),
        (path.to_path_buf(), bytes),
    ])
}

/// The first bytes of a file that stands where one is to be written.
pub fn standing(path: &Path, most: u64) -> Vec<u8> {
    files::read_some(path, most).unwrap_or_default()
}
