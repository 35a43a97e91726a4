//! A waveform of GTKWave (FST), whose VCD text the command `fst2vcd` gives.
mod blocks;
mod piped;

use super::stored::Stored;
use super::{told, Source};
use piped::Piped;
use std::fs::{self, File, Metadata};
use std::io::{self, Read};
use std::path::{Path, PathBuf};
use std::process::{Child, ChildStderr, Command, Stdio};
use std::sync::Arc;
use std::thread::{self, JoinHandle};
use std::time::{Duration, SystemTime};

/// Why an FST that is no file cannot be read.
pub const NO_FILE: &str =
    "this is an FST, which is read by fst2vcd of GTKWave, and that command needs a file: put it in a \
     file, or write a VCD";

/// The bytes of the command's messages that are kept, at most.
const MESSAGE: u64 = 1 << 12;

/// How long the command may give nothing: much longer than it needs for a block of a large file.
const SILENCE: Duration = Duration::from_secs(60);

/// Starts the command on a file that has all its blocks.
pub fn open(path: &Path, file: Arc<File>) -> io::Result<Box<dyn Source>> {
    let state = state(&file.metadata()?)?;
    let mut stored = Stored::File(file);
    blocks::check(&mut stored)?;
    let mut command = Command::new("fst2vcd");
    command.arg("-f").arg(path).stdin(Stdio::null());
    command.stdout(Stdio::piped()).stderr(Stdio::piped());
    let mut child = command.spawn().map_err(|error| match error.kind() {
        io::ErrorKind::NotFound => told(
            "this is an FST, which is read by fst2vcd of GTKWave, and that command is not there: \
             install GTKWave, or write a VCD",
        ),
        _ => told(format!(
            "this is an FST, and fst2vcd, which reads it, cannot be run: {error}"
        )),
    })?;
    let output = child.stdout.take();
    let output = output.map(|output| Piped::of(output, SILENCE));
    let messages = child
        .stderr
        .take()
        .map(|messages| thread::spawn(|| first_words(messages)));
    Ok(Box::new(Fst {
        stored,
        path: path.to_path_buf(),
        state,
        child: Some(child),
        output,
        messages,
    }))
}

/// What tells a file from the one that it was: its length, and when it was written last.
type State = (u64, SystemTime);

fn state(about: &Metadata) -> io::Result<State> {
    Ok((about.len(), about.modified()?))
}

/// An FST that the command reads.
struct Fst {
    stored: Stored,
    /// Its name, by which the command opens it.
    path: PathBuf,
    state: State,
    /// The command, until its end is seen.
    child: Option<Child>,
    output: Option<Piped>,
    /// Its messages are read beside its output, so that it never waits for a reader of them.
    messages: Option<JoinHandle<String>>,
}

impl Fst {
    /// The output has ended: asks that the command did not fail.
    fn end(&mut self) -> io::Result<()> {
        let Some(mut child) = self.child.take() else {
            return Ok(());
        };
        let status = child.wait()?;
        let messages = self.messages.take().map(JoinHandle::join);
        let messages = messages.and_then(Result::ok).unwrap_or_default();
        let colon = if messages.is_empty() { "" } else { ": " };
        match status.success() {
            true => Ok(()),
            false => Err(told(format!(
                "this is an FST, and fst2vcd, which reads it, failed ({status}){colon}{messages}"
            ))),
        }
    }
}

impl Read for Fst {
    fn read(&mut self, buffer: &mut [u8]) -> io::Result<usize> {
        let output = self.output.as_mut();
        let count = output.map_or(Ok(0), |output| output.read(buffer))?;
        if count == 0 && !buffer.is_empty() {
            self.end()?;
        }
        Ok(count)
    }
}

impl Source for Fst {
    fn digest(self: Box<Self>) -> io::Result<String> {
        let digest = self.stored.clone().digest()?;
        match state(&fs::metadata(&self.path)?)? == self.state {
            true => Ok(digest),
            false => Err(told(
                "this is an FST, and it was changed while it was read: record it when it is whole",
            )),
        }
    }
}

/// A command whose answer is not needed any more is ended, and never left behind.
impl Drop for Fst {
    fn drop(&mut self) {
        if let Some(child) = &mut self.child {
            let _ = child.kill();
            let _ = child.wait();
        }
    }
}

/// The first of what a command says, on one line; all of it is read.
fn first_words(mut messages: ChildStderr) -> String {
    let mut bytes = Vec::new();
    let _ = messages.by_ref().take(MESSAGE).read_to_end(&mut bytes);
    let _ = io::copy(&mut messages, &mut io::sink());
    let text = String::from_utf8_lossy(&bytes).into_owned();
    text.split_whitespace().collect::<Vec<_>>().join(" ")
}
