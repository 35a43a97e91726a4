//! A session file of sigrok (`.sr`): a ZIP archive with the names of the channels and what a logic
//! analyser sampled. Its VCD text is made as it is read, as sigrok-cli would write it.
mod metadata;
mod text;

use super::stored::Stored;
use super::zip::Archive;
use super::{told, Source};
use crate::words;
use metadata::Metadata;
use std::collections::VecDeque;
use std::io::{self, Cursor, Read};
use text::Body;

/// The bytes of a session's small entries, at most.
const VERSION: u64 = 64;
const METADATA: u64 = 1 << 20;
/// The bytes of samples that are read at once, about.
const AT_ONCE: usize = 1 << 16;

/// Opens a session.
pub fn open(stored: Stored) -> io::Result<Box<dyn Source>> {
    let archive = Archive::open(stored)?;
    if !archive.has("version") || !archive.has("metadata") {
        return Err(told(
            "this is a ZIP archive and no sigrok session, for it has no version and metadata: if a \
             waveform is in it, unpack it first",
        ));
    }
    let version = archive.text("version", VERSION)?;
    if !matches!(version.trim(), "1" | "2") {
        return Err(wrong("its version is not 1 or 2"));
    }
    let metadata = Metadata::of(&archive.text("metadata", METADATA)?).map_err(|why| wrong(&why))?;
    let pieces = pieces(&archive, &metadata)?;
    let ready = text::head(&metadata).map_err(|why| wrong(&why))?;
    Ok(Box::new(Session {
        archive,
        pieces,
        samples: Box::new(io::empty()),
        body: Body::of(metadata),
        ready: Cursor::new(ready.into_bytes()),
        done: false,
    }))
}

/// The error for a session that is not as it should be.
fn wrong(why: &str) -> io::Error {
    told(format!(
        "this is a sigrok session (.sr), and it cannot be read: {why}"
    ))
}

/// The entries with the samples, in their order: one, or numbered ones from 1 on.
fn pieces(archive: &Archive, metadata: &Metadata) -> io::Result<VecDeque<String>> {
    let Some(capture) = &metadata.capture else {
        return Ok(VecDeque::new());
    };
    let numbered = |number: usize| format!("{capture}-{number}");
    let count = (1usize..).take_while(|number| archive.has(&numbered(*number)));
    let count = count.last().unwrap_or_default();
    let is_one = |name: &&str| {
        let number = name.strip_prefix(capture.as_str());
        let number = number.and_then(|rest| rest.strip_prefix('-'));
        number.is_some_and(|number| number.bytes().all(|byte| byte.is_ascii_digit()))
    };
    if archive.names().filter(is_one).count() != count {
        let missing = numbered(count.saturating_add(1));
        let missing = words::shortened(&missing);
        return Err(wrong(&format!("{missing} is missing in it")));
    }
    let whole = Some(capture.clone()).filter(|name| archive.has(name));
    let pieces: VecDeque<String> = whole.into_iter().chain((1..=count).map(numbered)).collect();
    match pieces.is_empty() && !metadata.logic.is_empty() {
        true => {
            let capture = words::shortened(capture);
            Err(wrong(&format!("its samples, {capture}, are missing in it")))
        }
        false => Ok(pieces),
    }
}

/// A session whose text is being made.
struct Session {
    archive: Archive,
    /// The entries with samples that are still to be read.
    pieces: VecDeque<String>,
    /// The one that is being read.
    samples: Box<dyn Read>,
    body: Body,
    /// Text that is made and not yet taken.
    ready: Cursor<Vec<u8>>,
    done: bool,
}

impl Session {
    /// Makes more text, where there are more samples.
    fn more(&mut self) -> io::Result<()> {
        let mut bytes = Vec::new();
        let samples = &mut self.samples;
        samples.take(AT_ONCE as u64).read_to_end(&mut bytes)?;
        let text = match (bytes.is_empty(), self.pieces.pop_front()) {
            (false, piece) => {
                piece
                    .into_iter()
                    .for_each(|piece| self.pieces.push_front(piece));
                self.body.take(&bytes)
            }
            (true, Some(piece)) => {
                self.samples = Box::new(self.archive.entry(&piece)?);
                Vec::new()
            }
            (true, None) => {
                self.done = true;
                self.body.end().map_err(|why| wrong(&why))?
            }
        };
        self.ready = Cursor::new(text);
        Ok(())
    }
}

impl Read for Session {
    fn read(&mut self, buffer: &mut [u8]) -> io::Result<usize> {
        let mut count = self.ready.read(buffer)?;
        while count == 0 && !buffer.is_empty() && !self.done {
            self.more()?;
            count = self.ready.read(buffer)?;
        }
        Ok(count)
    }
}

impl Source for Session {
    fn digest(self: Box<Self>) -> io::Result<String> {
        self.archive.digest()
    }
}
