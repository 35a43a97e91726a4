//! The bytes of an entry, unpacked as they are read, with their size and their sum compared at the end.
use super::super::stored::Stored;
use super::directory::Entry;
use super::{damaged, told};
use flate2::read::DeflateDecoder;
use flate2::Crc;
use std::io::{self, Read};

/// An entry that is being read.
pub struct Piece {
    input: Box<dyn Read>,
    name: String,
    /// The bytes that are still to come.
    left: u64,
    /// The sum of those that came, and what it is at the end.
    sum: Crc,
    expected: u32,
}

impl Piece {
    /// An entry whose bytes in the archive come next.
    pub fn of(name: &str, stored: Stored, entry: &Entry) -> io::Result<Piece> {
        let packed = stored.take(entry.packed);
        let input: Box<dyn Read> = match entry.method {
            0 => Box::new(packed),
            8 => Box::new(DeflateDecoder::new(packed)),
            _ => {
                return Err(told(format!(
                    "this is a ZIP archive whose {name} is encrypted or packed in a way that is not \
                     read: stored and deflated entries are"
                )));
            }
        };
        Ok(Piece {
            input,
            name: name.to_string(),
            left: entry.size,
            sum: Crc::new(),
            expected: entry.sum,
        })
    }

    /// The error for bytes that are not those that were packed.
    fn wrong(&self, why: &str) -> io::Error {
        damaged(&format!("{} {why}", self.name))
    }

    /// Asks that nothing is left and the sum is right.
    fn end(&mut self) -> io::Result<()> {
        match self.left == 0 && self.sum.sum() == self.expected {
            true => Ok(()),
            false => Err(self.wrong("does not have the bytes that its sum is of")),
        }
    }
}

impl Read for Piece {
    fn read(&mut self, buffer: &mut [u8]) -> io::Result<usize> {
        let count = self.input.read(buffer).map_err(|error| {
            match error.raw_os_error().is_some() || error.kind() == io::ErrorKind::Interrupted {
                true => error,
                false => self.wrong(&format!("cannot be unpacked: {error}")),
            }
        })?;
        let left = self.left.checked_sub(count as u64);
        self.left = left.ok_or_else(|| self.wrong("is longer than its directory says"))?;
        self.sum.update(buffer.get(..count).unwrap_or_default());
        if count == 0 && !buffer.is_empty() {
            self.end()?;
        }
        Ok(count)
    }
}
