//! The SHA-256 of a stream, taken while it is read, so that no second reading is needed.
use super::Source;
use crate::sha256;
use sha2::{Digest, Sha256};
use std::io::{self, BufReader, Read};

/// A stream that is hashed as it is read.
pub struct Hashed<R> {
    input: R,
    hash: Sha256,
    ended: bool,
}

impl<R: Read> Hashed<R> {
    /// A stream of which nothing is read yet.
    pub fn of(input: R) -> Hashed<R> {
        Hashed {
            input,
            hash: Sha256::new(),
            ended: false,
        }
    }

    /// Whether its end was reached.
    pub fn ended(&self) -> bool {
        self.ended
    }

    /// The digest of all its bytes in lower-case hex; those that are left are read for it.
    pub fn finish(mut self) -> io::Result<String> {
        let mut rest = BufReader::with_capacity(1 << 16, &mut self);
        io::copy(&mut rest, &mut io::sink())?;
        Ok(sha256::hex(self.hash))
    }
}

impl<R: Read> Read for Hashed<R> {
    fn read(&mut self, buffer: &mut [u8]) -> io::Result<usize> {
        let count = self.input.read(buffer)?;
        self.ended |= count == 0 && !buffer.is_empty();
        self.hash.update(buffer.get(..count).unwrap_or_default());
        Ok(count)
    }
}

impl<R: Read> Source for Hashed<R> {
    fn digest(self: Box<Self>) -> io::Result<String> {
        self.finish()
    }
}
