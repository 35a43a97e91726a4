//! A gzip file, of one member or of several, with a VCD inside.
use super::hashed::Hashed;
use super::kind::Kind;
use super::{beginning, told, Source};
use flate2::read::MultiGzDecoder;
use std::io::{self, Cursor, Read};

/// The bytes of a file that may go by without any text from them, at most.
const SILENT: u64 = 1 << 24;

/// The bytes of a text that are read to see whether it is whole, at most.
const MOST: u64 = 1 << 30;

/// Opens the VCD inside.
pub fn open(input: Hashed<impl Read + 'static>) -> io::Result<Box<dyn Source>> {
    let mut rest = Unpacked(MultiGzDecoder::new(Packed {
        input,
        left: SILENT,
    }));
    let first = beginning(&mut rest)?;
    match Kind::of(&first) {
        Kind::Text => {
            let first = Cursor::new(first);
            Ok(Box::new(Gzip { first, rest }))
        }
        kind => {
            let what = kind.what();
            Err(told(format!(
                "this is a gzip file, and inside is {what}: only a VCD is read from a gzip file, so \
                 unpack it with gunzip first if that is a waveform"
            )))
        }
    }
}

/// The text inside: the bytes that were looked at, and the rest.
struct Gzip<R> {
    first: Cursor<Vec<u8>>,
    rest: Unpacked<R>,
}

impl<R: Read> Read for Gzip<R> {
    fn read(&mut self, buffer: &mut [u8]) -> io::Result<usize> {
        match self.first.read(buffer)? {
            0 => self.rest.read(buffer),
            count => Ok(count),
        }
    }
}

impl<R: Read> Source for Gzip<R> {
    /// The sum of a gzip file stands at its end, so a damaged one may give a text first.
    fn sound(mut self: Box<Self>) -> io::Result<()> {
        let mut rest = (&mut self.rest).take(MOST);
        io::copy(&mut rest, &mut io::sink()).map(|_| ())
    }

    fn digest(self: Box<Self>) -> io::Result<String> {
        self.rest.0.into_inner().input.finish()
    }
}

/// The bytes of the file. Those of a header are kept in memory, so one without an end is not read on.
struct Packed<R> {
    input: Hashed<R>,
    /// How many more may be read before there is text.
    left: u64,
}

impl<R: Read> Read for Packed<R> {
    fn read(&mut self, buffer: &mut [u8]) -> io::Result<usize> {
        if self.left == 0 {
            return Err(told(format!("{SILENT} bytes of it have no text")));
        }
        let count = self.input.by_ref().take(self.left).read(buffer)?;
        self.left = self.left.saturating_sub(count as u64);
        Ok(count)
    }
}

/// What is inside, with errors that name a gzip file.
struct Unpacked<R>(MultiGzDecoder<Packed<R>>);

impl<R: Read> Read for Unpacked<R> {
    fn read(&mut self, buffer: &mut [u8]) -> io::Result<usize> {
        self.0.get_mut().left = SILENT;
        let read = self.0.read(buffer);
        read.map_err(|error| match error.kind() {
            _ if error.raw_os_error().is_some() => error,
            io::ErrorKind::Interrupted => error,
            // more was asked for than there is
            _ if self.0.get_ref().input.ended() => told(
                "this is a gzip file, and it ends early: the rest of it is missing, or it is damaged",
            ),
            _ => told(format!("this is a gzip file, and it is damaged: {error}")),
        })
    }
}
