//! Opening a waveform: what it is stored as is told by its first bytes, and its VCD text is read as a
//! stream.
mod fst;
mod gzip;
mod hashed;
mod kind;
mod sigrok;
mod stored;
mod zip;

use super::header::{self, Header};
use super::tokens::Tokens;
use super::unreadable;
use crate::failure::Failure;
use crate::words;
use hashed::Hashed;
use kind::Kind;
use std::fmt;
use std::fs::File;
use std::io::{self, BufReader, Cursor, Read};
use std::path::{Path, PathBuf};
use std::sync::Arc;
use stored::Stored;

/// The name that stands for standard input.
pub const STANDARD_INPUT: &str = "-";
/// The first bytes, by which it is told what a file is.
const BEGINNING: u64 = 64;

/// The VCD text of a waveform as a stream, whatever it is stored as.
pub trait Source: Read {
    /// The SHA-256 of the bytes as they are stored, in lower-case hex. What was not read of them is
    /// read for it.
    fn digest(self: Box<Self>) -> io::Result<String>;

    /// Asks, where the text inside has a fault, whether what it is stored in is damaged: then that is the fault.
    fn sound(self: Box<Self>) -> io::Result<()> {
        Ok(())
    }
}

/// A waveform whose header is read; what follows the header stays to be read.
pub struct Opened {
    /// What it declares.
    pub header: Header,
    /// The words after the header.
    pub tokens: Tokens<BufReader<Box<dyn Source>>>,
    path: PathBuf,
}

impl Opened {
    /// The SHA-256 of the waveform's bytes as they are stored, in lower-case hex: of a compressed file
    /// those of the file. Where reading stopped early, the rest is read for it.
    pub fn digest(self) -> Result<String, Failure> {
        let source = self.tokens.into_input().into_inner();
        source
            .digest()
            .map_err(|error| unreadable(&self.path, &error))
    }
}

impl Opened {
    /// A failure with this waveform, or that what it is stored in is damaged, where it is.
    pub fn blamed(self, failure: Failure) -> Failure {
        blamed(&self.path, self.tokens, failure)
    }
}

fn blamed(path: &Path, tokens: Tokens<BufReader<Box<dyn Source>>>, failure: Failure) -> Failure {
    match tokens.into_input().into_inner().sound() {
        Ok(()) => failure,
        Err(error) => unreadable(path, &error),
    }
}

/// Why a stream cannot be read on, in words that name what it is.
#[derive(Debug)]
pub struct Told(String);

impl fmt::Display for Told {
    fn fmt(&self, f: &mut fmt::Formatter<'_>) -> fmt::Result {
        f.write_str(&self.0)
    }
}

impl std::error::Error for Told {}

/// The error with these words, in which a stream's own may stand.
fn told(words: impl Into<String>) -> io::Error {
    let told: String = words.into();
    io::Error::other(Told(told.chars().map(words::printable).collect()))
}

/// Opens a waveform, `-` for standard input, and reads its header.
pub fn open(path: &Path) -> Result<Opened, Failure> {
    let source = source(path).map_err(|error| unreadable(path, &error))?;
    read_header(path, source)
}

/// Reads the header of a source that was found under this name.
fn read_header(path: &Path, source: Box<dyn Source>) -> Result<Opened, Failure> {
    let mut tokens = Tokens::of(BufReader::with_capacity(1 << 16, source));
    let header = tokens.skip_mark().and_then(|()| header::read(&mut tokens));
    let header = match header {
        Ok(header) => header,
        Err(wrong) => return Err(blamed(path, tokens, wrong.of(path))),
    };
    let path = path.to_path_buf();
    Ok(Opened {
        header,
        tokens,
        path,
    })
}

/// The VCD text of what stands under this name.
fn source(path: &Path) -> io::Result<Box<dyn Source>> {
    if path == Path::new(STANDARD_INPUT) {
        return of_stream(io::stdin(), None);
    }
    let file = Arc::new(File::open(path)?);
    // what is no file on a disk, such as a pipe, can be read once only
    let again = file.metadata()?.is_file().then(|| (path, file.clone()));
    of_stream(file, again)
}

/// The VCD text of a stream; `file` is the stream as a file with its name, where it is one.
fn of_stream(
    mut input: impl Read + 'static,
    file: Option<(&Path, Arc<File>)>,
) -> io::Result<Box<dyn Source>> {
    let beginning = beginning(&mut input)?;
    let kind = Kind::of(&beginning);
    let input = Hashed::of(Cursor::new(beginning).chain(input));
    match kind {
        Kind::Text => Ok(Box::new(input)),
        Kind::Gzip => gzip::open(input),
        Kind::Zip => sigrok::open(match file {
            Some((_, file)) => Stored::File(file),
            None => Stored::in_memory(input, stored::MOST)?,
        }),
        Kind::Fst => match file {
            Some((path, file)) => fst::open(path, file),
            None => Err(told(fst::NO_FILE)),
        },
        Kind::Other(what, advice) => Err(told(format!("this is {what}, and no waveform{advice}"))),
    }
}

/// The first bytes of a stream, all of a shorter one.
fn beginning(input: &mut impl Read) -> io::Result<Vec<u8>> {
    let mut bytes = Vec::new();
    input.take(BEGINNING).read_to_end(&mut bytes)?;
    Ok(bytes)
}

#[cfg(test)]
mod tests;
