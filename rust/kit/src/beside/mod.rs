//! What is known of a table or a record: a file that the kit writes beside it. Tables and records have
//! numbers alone, so `NAME.svt.json` and `NAME.svw.json` tell what their signals are called and what they
//! were made from, and by their SHA-256 of which bytes that is told.
mod agreement;
mod recorded;
mod tabled;

pub use agreement::{agree, unlike, RECORD_AGAIN};
pub use recorded::{signal_lines, signals, Recorded, Signal};
pub use tabled::Tabled;

use crate::failure::Failure;
use crate::files::{self, shown};
use crate::names::{begins_name, in_name, Names};
use crate::sha256;
use crate::words;
use serde::{de::DeserializeOwned, Deserialize, Serialize};
use std::fs;
use std::io::{
    self,
    ErrorKind::{InvalidFilename, NotFound},
};
use std::path::{Path, PathBuf};

/// The bytes of such a file, at most: 63 samples and 64 signals have far fewer, but where the paths are
/// very long.
pub const LONGEST: u64 = 1 << 20;

/// What a command writes beside a file of its own.
pub trait Beside: Serialize + DeserializeOwned {
    /// The command, which the first entry names.
    const WRITER: &'static str;
    /// What it writes: `table` or `record`.
    const WHAT: &'static str;

    /// The command that the first entry names.
    fn written_by(&self) -> &str;

    /// The file that this stands beside.
    fn about(&self) -> &Identity;

    /// The signals' numbers and names.
    fn named(&self) -> Vec<(u8, &str)>;

    /// The other texts in it, which are shown to people.
    fn texts(&self) -> Vec<&str>;

    /// Why it cannot be of a file with these bytes, if it cannot.
    fn misfit(&self, _bytes: &[u8]) -> Option<&'static str> {
        None
    }

    /// The names of the signals.
    fn names(&self) -> Names {
        let mut names = Names::none();
        for (number, name) in self.named() {
            // reading asks that none stands twice
            let _ = names.declare(name, number);
        }
        names
    }
}

/// A file by its name and its contents.
#[derive(Clone, Debug, PartialEq, Eq, Serialize, Deserialize)]
pub struct Identity {
    /// The name of the file, without its folders.
    pub file: String,
    /// The SHA-256 of its bytes, in hexadecimal digits.
    pub sha256: String,
}

impl Identity {
    /// A file with these bytes.
    pub fn of(path: &Path, bytes: &[u8]) -> Identity {
        Identity {
            file: shown(Path::new(path.file_name().unwrap_or_default())),
            sha256: sha256::of(bytes),
        }
    }

    /// The name and the digest.
    pub fn words(&self) -> String {
        format!("{}, SHA-256 {}", self.file, self.sha256)
    }
}

/// The file beside a table or a record: its name with `.json` after it.
pub fn path(file: &Path) -> PathBuf {
    let mut path = file.as_os_str().to_owned();
    path.push(".json");
    PathBuf::from(path)
}

/// The bytes of the file that is written beside one.
pub fn bytes<T: Beside>(file: &Path, known: &T) -> Result<Vec<u8>, Failure> {
    // strings and numbers alone, which are always written
    let mut json = serde_json::to_vec_pretty(known).unwrap_or_default();
    json.push(b'\n');
    match json.len() as u64 > LONGEST {
        true => Err(Failure::Failed(format!(
            "{}: cannot be written: it would be longer than a mebibyte, for the names, paths or comment that it \
             tells are too long",
            shown(&path(file))
        ))),
        false => Ok(json),
    }
}

/// What is known of a file with these bytes, which are accepted; nothing where no file stands beside it.
/// One that does must be of these very bytes.
pub fn known<T: Beside>(file: &Path, bytes: &[u8]) -> Result<Option<T>, Failure> {
    let Some(known) = read::<T>(file)? else {
        return Ok(None);
    };
    let (was, is) = (&known.about().sha256, sha256::of(bytes));
    if *was == is {
        return match known.misfit(bytes) {
            Some(why) => Err(wrong::<T>(file, why)),
            None => Ok(Some(known)),
        };
    }
    let (beside, file, writer) = (shown(&path(file)), shown(file), T::WRITER);
    Err(Failure::Failed(format!(
        "{file}: changed since {writer} wrote it, or the writing was cut off: its SHA-256 is {is}, and {beside} says \
         {was}; write it again, or take {beside} away to go on with no names known"
    )))
}

/// Where what is known of a file stands: beside it, or where nothing does and it is a link beside the file that
/// the link leads to.
pub fn place(file: &Path) -> PathBuf {
    let beside = path(file);
    let link = fs::symlink_metadata(file).is_ok_and(|about| about.is_symlink());
    match fs::canonicalize(file) {
        Ok(target) if link && fs::symlink_metadata(&beside).is_err() => path(&target),
        _ => beside,
    }
}

/// What stands beside a file, of whatever bytes.
pub fn read<T: Beside>(file: &Path) -> Result<Option<T>, Failure> {
    let path = place(file);
    let bytes = match not_waited_for(&path).and_then(|()| files::read_some(&path, LONGEST + 1)) {
        // a name as long as names can be has no room for the ending, so nothing stands there
        Err(error) if matches!(error.kind(), NotFound | InvalidFilename) => return Ok(None),
        Err(error) => return Err(files::unreadable(&path, &error)),
        Ok(bytes) => bytes,
    };
    let read = match bytes.len() as u64 > LONGEST {
        true => Err("it is longer than a mebibyte".to_string()),
        false => serde_json::from_slice(&bytes).map_err(|error| error.to_string()),
    };
    let read = read.and_then(|known: T| match fault(&known) {
        Some(why) => Err(why),
        None => Ok(known),
    });
    read.map(Some).map_err(|why| wrong::<T>(file, &why))
}

/// Asks that a file can be read at once: nobody names this one, and a pipe would be waited for.
fn not_waited_for(path: &Path) -> io::Result<()> {
    let about = fs::metadata(path)?;
    match about.is_file() || about.is_dir() {
        true => Ok(()),
        false => Err(io::Error::other("this is not an ordinary file")),
    }
}

/// The failure where what stands beside a file is not what the command writes there.
fn wrong<T: Beside>(file: &Path, why: &str) -> Failure {
    let (beside, writer, what) = (shown(&path(file)), T::WRITER, T::WHAT);
    Failure::Failed(format!(
        "{beside}: not what {writer} writes beside a {what}: {why}; write the {what} again, or take {beside} away to \
         go on with no names known"
    ))
}

/// What the command would never write, if anything.
fn fault<T: Beside>(known: &T) -> Option<String> {
    if known.written_by() != T::WRITER {
        return Some(format!("its written_by is not {}", T::WRITER));
    }
    let mut names = Names::none();
    for (number, name) in known.named() {
        if !name.starts_with(begins_name) || !name.chars().all(in_name) {
            let name = words::shortened(name);
            let name: String = name.chars().map(words::printable).collect();
            return Some(format!("'{name}' is no name of a signal"));
        }
        if let Err(why) = names.declare(name, number) {
            return Some(why);
        }
    }
    let unseen = |text: &&str| text.chars().any(words::unseen);
    let about = known.about();
    let texts = [about.file.as_str(), about.sha256.as_str()];
    let mut texts = known.texts().into_iter().chain(texts);
    let why = || "a text in it has characters that cannot be seen".to_string();
    texts.any(|text| unseen(&text)).then(why)
}
