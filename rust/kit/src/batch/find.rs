//! Finding the records that are to be judged.
use std::fs::{self, FileType};
use std::io;
use std::path::{Path, PathBuf};

/// A record's file, or a place where one could not be looked for.
#[derive(Debug)]
pub struct Place {
    /// Where it is.
    pub path: PathBuf,
    /// Why nothing can be read there, where that is known before it is opened.
    pub wrong: Option<String>,
}

/// What was found.
#[derive(Debug, Default)]
pub struct Found {
    /// The records in their order, and the places that could not be looked into.
    pub places: Vec<Place>,
    /// The files that were passed over since they are not called records, and the links to folders.
    pub others: usize,
    /// The folders that were given and have no record below them.
    pub empty: Vec<PathBuf>,
}

/// Finds the records: each file that is given, and of a folder every file below it whose name ends in
/// `.svw`, by name. A link to a folder below a given one is not entered, so there is no loop.
pub fn find(given: &[PathBuf]) -> Found {
    let mut found = Found::default();
    for path in given {
        match fs::metadata(path) {
            Ok(about) if about.is_dir() => {
                let before = found.places.len();
                found.search(path);
                if found.places.len() == before {
                    found.empty.push(path.clone());
                }
            }
            // where it is not there, reading it says so
            _ => found.record(path.clone()),
        }
    }
    found
}

impl Found {
    fn record(&mut self, path: PathBuf) {
        self.places.push(Place { path, wrong: None });
    }

    fn unreadable(&mut self, path: PathBuf, why: String) {
        let wrong = Some(why);
        self.places.push(Place { path, wrong });
    }

    /// Searches a folder. What is still to be looked at waits in a list and not on the stack, however
    /// deep the folders are.
    fn search(&mut self, folder: &Path) {
        let mut waiting = self.inside(folder.to_path_buf());
        while let Some((path, kind)) = waiting.pop() {
            match kind.is_dir() {
                true => waiting.append(&mut self.inside(path)),
                false => self.entry(path, kind),
            }
        }
    }

    /// What is in a folder, the last by name first. Where the folder cannot be read, or not to its
    /// end, it is named beside what was found in it.
    fn inside(&mut self, folder: PathBuf) -> Vec<(PathBuf, FileType)> {
        let mut inside = Vec::new();
        if let Err(error) = read_folder(&folder, &mut inside) {
            self.unreadable(folder, format!("this folder cannot be read: {error}"));
        }
        inside.sort_unstable_by(|(one, _), (other, _)| other.as_os_str().cmp(one.as_os_str()));
        inside
    }

    /// Takes a file of a folder, or passes it over. What would be waited for, such as a pipe, is not
    /// opened.
    fn entry(&mut self, path: PathBuf, kind: FileType) {
        let name = path.as_os_str().as_encoded_bytes();
        if !name.ends_with(b".svw") {
            // what stands beside a record is read with it
            self.others += usize::from(!name.ends_with(b".svw.json"));
            return;
        }
        let kind = match kind.is_symlink() {
            true => fs::metadata(&path).map(|about| about.file_type()),
            false => Ok(kind),
        };
        match kind {
            Ok(kind) if kind.is_dir() => self.others += 1,
            Ok(kind) if !kind.is_file() => {
                self.unreadable(path, "this is not an ordinary file".to_string());
            }
            _ => self.record(path),
        }
    }
}

/// Reads what is in a folder.
fn read_folder(folder: &Path, inside: &mut Vec<(PathBuf, FileType)>) -> io::Result<()> {
    for entry in fs::read_dir(folder)? {
        let entry = entry?;
        inside.push((entry.path(), entry.file_type()?));
    }
    Ok(())
}
