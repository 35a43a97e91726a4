//! Bytes in which any place can be read: a file, or what came from a stream.
use super::hashed::Hashed;
use super::told;
use std::fs::File;
use std::io::{self, Cursor, Read, Seek, SeekFrom};
use std::sync::Arc;

/// The bytes of a stream that are taken into memory, at most: 256 MiB.
pub const MOST: u64 = 1 << 28;

/// The bytes. Copies of a file share one place in it, so they are read one after the other, each from
/// a place that it seeks first.
#[derive(Clone)]
pub enum Stored {
    /// In a file.
    File(Arc<File>),
    /// In memory.
    Memory(Cursor<Arc<[u8]>>),
}

impl Stored {
    /// All bytes of a stream, where they are not more than `most`.
    pub fn in_memory(input: impl Read, most: u64) -> io::Result<Stored> {
        let mut bytes = Vec::new();
        input.take(most.saturating_add(1)).read_to_end(&mut bytes)?;
        if bytes.len() as u64 > most {
            return Err(told(
                "this is a ZIP archive of over 256 MiB, and it is no file: put it in a file first, \
                 or write a VCD",
            ));
        }
        Ok(Stored::Memory(Cursor::new(bytes.into())))
    }

    /// How many bytes there are.
    pub fn length(&mut self) -> io::Result<u64> {
        self.seek(SeekFrom::End(0))
    }

    /// So many bytes from a place on.
    pub fn bytes_at(&mut self, at: u64, count: usize) -> io::Result<Vec<u8>> {
        self.seek(SeekFrom::Start(at))?;
        let mut bytes = vec![0; count];
        self.read_exact(&mut bytes)?;
        Ok(bytes)
    }

    /// The SHA-256 of all of them, in lower-case hex.
    pub fn digest(mut self) -> io::Result<String> {
        self.seek(SeekFrom::Start(0))?;
        Hashed::of(self).finish()
    }
}

impl Read for Stored {
    fn read(&mut self, buffer: &mut [u8]) -> io::Result<usize> {
        match self {
            Stored::File(file) => file.read(buffer),
            Stored::Memory(bytes) => bytes.read(buffer),
        }
    }
}

impl Seek for Stored {
    fn seek(&mut self, to: SeekFrom) -> io::Result<u64> {
        match self {
            Stored::File(file) => file.seek(to),
            Stored::Memory(bytes) => bytes.seek(to),
        }
    }
}
