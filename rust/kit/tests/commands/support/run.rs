//! Running the kit.
use kit::Console;
use std::ffi::{OsStr, OsString};
use std::io::{self, ErrorKind, Write};

/// What a run of the kit left.
#[derive(Debug, PartialEq, Eq)]
pub struct Ran {
    pub status: u8,
    pub out: String,
    pub err: String,
}

impl Ran {
    /// The first line of the answer.
    pub fn line(&self) -> &str {
        self.out.lines().next().unwrap_or_default()
    }
}

/// Runs the kit as in a pipe.
pub fn kit<T: AsRef<OsStr>>(words: impl IntoIterator<Item = T>) -> Ran {
    let mut out = Vec::new();
    let (status, err) = kit_to(words, &mut out, false);
    let out = String::from_utf8(out).expect("what is said is UTF-8");
    Ran { status, out, err }
}

/// Runs the kit with an output of its own; `live` says that a person watches standard error. Answers
/// the status, and what standard error got.
pub fn kit_to<T: AsRef<OsStr>>(
    words: impl IntoIterator<Item = T>,
    out: &mut dyn Write,
    live: bool,
) -> (u8, String) {
    let words = words.into_iter().map(|word| word.as_ref().to_owned());
    let words: Vec<OsString> = words.collect();
    let mut err = Vec::new();
    let mut console = Console {
        out,
        err: &mut err,
        live,
    };
    let status = kit::run(words, &mut console);
    let err = String::from_utf8(err).expect("what is told is UTF-8");
    (status, err)
}

/// An output that takes some bytes and then fails.
pub struct Failing {
    pub takes: usize,
    pub with: ErrorKind,
}

impl Write for Failing {
    fn write(&mut self, bytes: &[u8]) -> io::Result<usize> {
        if self.takes == 0 {
            return Err(self.with.into());
        }
        let taken = bytes.len().min(self.takes);
        self.takes -= taken;
        Ok(taken)
    }

    fn flush(&mut self) -> io::Result<()> {
        Ok(())
    }
}
