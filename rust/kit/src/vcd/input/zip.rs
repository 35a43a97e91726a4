//! A ZIP archive: its directory, which stands at its end, and its entries. Nothing is taken on trust:
//! places and sizes are compared with the file's, and sums with what is read.
mod directory;
mod fields;
mod piece;

use super::stored::Stored;
use super::told;
use directory::Entry;
use fields::Fields;
use piece::Piece;
use std::collections::HashMap;
use std::io::{self, Read, Seek, SeekFrom};

/// The bytes before an entry's name in front of its data.
const LOCAL: usize = 30;

/// An archive whose directory is read.
pub struct Archive {
    stored: Stored,
    length: u64,
    /// By their names.
    entries: HashMap<String, Entry>,
}

impl Archive {
    /// Reads the directory.
    pub fn open(mut stored: Stored) -> io::Result<Archive> {
        let length = stored.length()?;
        let entries = directory::read(&mut stored, length)?;
        Ok(Archive {
            stored,
            length,
            entries,
        })
    }

    /// Whether there is an entry with this name.
    pub fn has(&self, name: &str) -> bool {
        self.entries.contains_key(name)
    }

    /// The names of the entries.
    pub fn names(&self) -> impl Iterator<Item = &str> {
        self.entries.keys().map(String::as_str)
    }

    /// The bytes of an entry as a stream.
    pub fn entry(&self, name: &str) -> io::Result<Piece> {
        let found = self.entries.get(name);
        let entry = found.ok_or_else(|| damaged(&format!("{name} is not in it")))?;
        let wrong = || damaged(&format!("{name} is not where its directory says"));
        let mut stored = self.stored.clone();
        let room = self.length.checked_sub(entry.at).ok_or_else(wrong)?;
        if room < LOCAL as u64 {
            return Err(wrong());
        }
        let local = stored.bytes_at(entry.at, LOCAL)?;
        let local = Fields(&local);
        let texts = local.u16(26).zip(local.u16(28));
        let texts = texts.filter(|_| local.begins(b"PK\x03\x04"));
        let (letters, extra) = texts.ok_or_else(wrong)?;
        let before = LOCAL as u64 + u64::from(letters) + u64::from(extra);
        if room.saturating_sub(before) < entry.packed {
            return Err(wrong());
        }
        stored.seek(SeekFrom::Start(entry.at.saturating_add(before)))?;
        Piece::of(name, stored, entry)
    }

    /// The text of a small entry.
    pub fn text(&self, name: &str, most: u64) -> io::Result<String> {
        let mut bytes = Vec::new();
        self.entry(name)?.take(most + 1).read_to_end(&mut bytes)?;
        if bytes.len() as u64 > most {
            return Err(damaged(&format!("{name} is over {most} bytes")));
        }
        String::from_utf8(bytes).map_err(|_| damaged(&format!("{name} is no text in UTF-8")))
    }

    /// The SHA-256 of the archive, in lower-case hex.
    pub fn digest(self) -> io::Result<String> {
        self.stored.digest()
    }
}

/// The error for an archive that is not as it should be.
fn damaged(what: &str) -> io::Error {
    told(format!(
        "this is a ZIP archive, as a sigrok session is, and it ends early or is damaged: {what}"
    ))
}
