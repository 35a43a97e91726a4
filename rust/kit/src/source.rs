//! What the commands are given: a table with its signals' names, and a record.
use crate::beside::{self, Beside, Identity, Tabled};
use crate::failure::Failure;
use crate::files;
use crate::names::Names;
use crate::notation::{self, Mistake};
use crate::origin::{self, Read};
use crate::sha256;
use std::path::{Path, PathBuf};

/// A table's bytes, refused or not, and the names of its signals.
#[derive(Clone, Debug)]
pub struct Source {
    /// The bytes.
    pub table: Vec<u8>,
    /// The names.
    pub names: Names,
    /// Where it was read.
    pub read: Read,
    /// The text that the names are of, if they are of any.
    pub text: Option<Text>,
    /// The comment at the head of the text that the table is made of. The text that only names the
    /// signals of a table is not the one that is judged, and gives none.
    pub comment: Option<String>,
}

/// A text that names signals.
#[derive(Clone, Debug, PartialEq, Eq)]
pub enum Text {
    /// The assertion itself is a text, or another one was given with it.
    Given(PathBuf),
    /// The file beside the table tells of it.
    Beside(Identity),
}

impl Source {
    /// A table that is in no file.
    pub fn made(table: Vec<u8>, names: Names) -> Source {
        Source {
            read: Read::of(Path::new(""), &table),
            table,
            names,
            text: None,
            comment: None,
        }
    }
}

/// Reads a TABLE: a text in the notation where the file's name ends in `.txt`, any other file as a
/// table. `names` is a text whose declarations name the signals of a table.
pub fn table(path: &Path, names: Option<&Path>) -> Result<Source, Failure> {
    if !is_text(path) {
        return bytes(path, names);
    }
    if names.is_some() {
        let words = format!(
            "{} names its signals itself: leave --names out",
            files::shown(path)
        );
        return Err(Failure::Usage(words));
    }
    let text = files::read_text(path)?;
    let read = notation::read(&text).map_err(|mistake| wrong(path, &mistake))?;
    Ok(Source {
        table: read.assertion.table(),
        names: read.names,
        read: Read {
            file: files::shown(path),
            sha256: Some(sha256::of(text.as_bytes())),
        },
        text: Some(Text::Given(path.to_path_buf())),
        comment: notation::comment(&text),
    })
}

/// Reads a table. Its names are those of the file beside it or of the text that is given, and where there
/// are both they must agree. What stands beside a refused table says nothing.
fn bytes(path: &Path, given: Option<&Path>) -> Result<Source, Failure> {
    let table = files::read(path)?;
    let tabled: Option<Tabled> = match xistomar::check(&table) {
        Ok(_) => beside::known(path, &table)?,
        Err(_) => None,
    };
    let comment = tabled.as_ref().and_then(|tabled| tabled.comment.clone());
    let given = given.map(|text| Ok((text, declared(text)?))).transpose()?;
    let (names, text) = match (given, tabled) {
        (None, None) => (Names::none(), None),
        (None, Some(tabled)) => (tabled.names(), Some(Text::Beside(tabled.text))),
        (Some((text, names)), tabled) => {
            if let Some(tabled) = tabled {
                let asked = origin::asked(&table);
                let advice =
                    "--names takes a text that calls the signals as the table's own text does";
                beside::agree((path, &tabled.names()), &asked, (text, &names), advice)?;
            }
            (names, Some(Text::Given(text.to_path_buf())))
        }
    };
    Ok(Source {
        read: Read::of(path, &table),
        table,
        names,
        text,
        comment,
    })
}

/// The names that a text declares.
pub fn declared(path: &Path) -> Result<Names, Failure> {
    let text = files::read_text(path)?;
    let names = notation::read_names(&text).map_err(|mistake| wrong(path, &mistake))?;
    match names.all() {
        [] => Err(Failure::Failed(format!(
            "{}: no line declares signals, as in signals ack=0 drop=1",
            files::shown(path)
        ))),
        _ => Ok(names),
    }
}

/// Whether a file is a text, by its name.
pub fn is_text(path: &Path) -> bool {
    path.extension().is_some_and(|ending| ending == "txt")
}

/// Whether a file is a record, by its name.
pub fn is_record(path: &Path) -> bool {
    path.extension().is_some_and(|ending| ending == "svw")
}

/// The message for a mistake in a text.
pub fn wrong(path: &Path, mistake: &Mistake) -> Failure {
    Failure::Failed(format!("{}:{mistake}", files::shown(path)))
}
