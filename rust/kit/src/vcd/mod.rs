//! Waveforms: value change dumps (VCD) as simulators and logic analysers write them, plain or
//! compressed, read as a stream, and the samples taken from them.
mod bit;
mod changes;
mod choose;
mod codes;
mod edges;
mod header;
mod input;
mod sampling;
mod time;
mod tokens;
mod values;
mod variable;
mod wanted;

pub use changes::Changes;
pub use choose::{constant, find, Constant, Wire};
pub use edges::Edge;
pub use header::Header;
pub use input::open;
pub use sampling::{take, Keep, Moments, Plan, Run, Taken, Windows};
pub use time::Scale;
pub use variable::Variable;
pub use wanted::{all_wanted, wanted, Wanted};

use crate::failure::Failure;
use crate::files;
use std::io;
use std::path::Path;

/// Why a waveform gives no answer.
#[derive(Debug)]
pub enum Wrong {
    /// It cannot be read.
    Unreadable(io::Error),
    /// A line is not as it should be.
    Line(u64, String),
    /// It is well written, and what was asked is not in it.
    Whole(String),
}

impl Wrong {
    /// The message, with the name of the file.
    pub fn of(self, path: &Path) -> Failure {
        let shown = shown(path);
        match self {
            Wrong::Unreadable(error) => unreadable(path, &error),
            Wrong::Line(line, words) => Failure::Failed(format!("{shown}:{line}: {words}")),
            Wrong::Whole(words) => Failure::Failed(format!("{shown}: {words}")),
        }
    }
}

/// The name of a waveform in a message.
pub fn shown(path: &Path) -> String {
    match path == Path::new(input::STANDARD_INPUT) {
        true => "standard input".to_string(),
        false => files::shown(path),
    }
}

/// The message for a waveform that cannot be read.
fn unreadable(path: &Path, error: &io::Error) -> Failure {
    let inner = error.get_ref();
    let told = inner.and_then(|inner| inner.downcast_ref::<input::Told>());
    let words = told.map_or_else(|| files::why(error), |told| told.to_string());
    Failure::Failed(format!("{}: {words}", shown(path)))
}

#[cfg(test)]
mod tests;
