//! Reading whole files.
use crate::failure::Failure;
use crate::words;
use std::fs::File;
use std::io::{self, Read};
use std::path::Path;

/// The bytes read of a table or a record. No accepted one has more than 510, and the rest of a longer
/// file does not change its refusal.
pub const MOST: u64 = 512;

/// The bytes of a text, at most.
const LONGEST_TEXT: u64 = 1 << 20;

/// The bytes of a table or a record, cut at [`MOST`].
pub fn read(path: &Path) -> Result<Vec<u8>, Failure> {
    read_some(path, MOST).map_err(|error| unreadable(path, &error))
}

/// The first bytes of a file, at most `most`.
pub fn read_some(path: &Path, most: u64) -> io::Result<Vec<u8>> {
    let mut bytes = Vec::new();
    File::open(path)?.take(most).read_to_end(&mut bytes)?;
    Ok(bytes)
}

/// A text of at most a mebibyte.
pub fn read_text(path: &Path) -> Result<String, Failure> {
    let bytes = read_some(path, LONGEST_TEXT + 1).map_err(|error| unreadable(path, &error))?;
    if bytes.len() as u64 > LONGEST_TEXT {
        let words = format!(
            "{}: longer than any assertion, over a mebibyte",
            shown(path)
        );
        return Err(Failure::Failed(words));
    }
    String::from_utf8(bytes).map_err(|error| {
        let place = error.utf8_error().valid_up_to();
        let shown = shown(path);
        Failure::Failed(format!("{shown}: not a text: byte {place} is no UTF-8"))
    })
}

/// The message for a file that cannot be read.
pub fn unreadable(path: &Path, error: &io::Error) -> Failure {
    Failure::Failed(format!("{}: {}", shown(path), why(error)))
}

/// A file's name on one line, whatever it contains: what cannot be seen is escaped, and what
/// is no UTF-8 is replaced.
pub fn shown(path: &Path) -> String {
    let mut shown = String::new();
    for character in path.to_string_lossy().chars() {
        match words::unseen(character) {
            true => shown.extend(character.escape_default()),
            false => shown.push(character),
        }
    }
    shown
}

/// Why a file cannot be read, in words.
pub fn why(error: &io::Error) -> String {
    match error.kind() {
        io::ErrorKind::NotFound => "there is no such file".to_string(),
        io::ErrorKind::IsADirectory => "this is a folder, not a file".to_string(),
        io::ErrorKind::PermissionDenied => "this file may not be read".to_string(),
        _ => format!("cannot be read: {error}"),
    }
}
