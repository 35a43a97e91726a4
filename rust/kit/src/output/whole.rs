//! Writing files whole or not at all.
use crate::failure::Failure;
use crate::files::shown;
use std::fs::{self, File, OpenOptions};
use std::io::{self, Write};
use std::path::{Path, PathBuf};
use std::process;
use std::time::{SystemTime, UNIX_EPOCH};

/// Files that are written beside their places, and take them all at the end: where one cannot be written,
/// none is changed.
pub struct Whole {
    /// What the names of the parts have that no other run's have.
    mark: String,
    parts: Vec<Part>,
}

/// A file that is written beside the one whose place it takes, and is gone where it does not.
struct Part {
    written: PathBuf,
    target: PathBuf,
    placed: bool,
}

/// Writes files, each under its name.
pub fn write_whole(files: &[(PathBuf, Vec<u8>)]) -> Result<(), Failure> {
    let mut whole = Whole::new();
    whole.write(files)?;
    whole.place()
}

impl Whole {
    /// No file yet. What a run that was killed left behind is in nobody's way: a number of a process comes
    /// again, as in a new container, but not at the same time.
    pub fn new() -> Whole {
        let since = SystemTime::now().duration_since(UNIX_EPOCH);
        let time = since.unwrap_or_default().as_nanos();
        Whole {
            mark: format!("{}-{time:x}", process::id()),
            parts: Vec::new(),
        }
    }

    /// Writes files beside their places.
    pub fn write(&mut self, files: &[(PathBuf, Vec<u8>)]) -> Result<(), Failure> {
        for (path, bytes) in files {
            // short, for the name of the place may be as long as names can be
            let name = format!(".kit-{}-{}.part", self.mark, self.parts.len());
            let part = Part::write(path, bytes, &name).map_err(|error| cannot(path, &error))?;
            self.parts.push(part);
        }
        Ok(())
    }

    /// Puts the files in their places, in the order in which they were written.
    pub fn place(mut self) -> Result<(), Failure> {
        for part in &mut self.parts {
            part.place().map_err(|error| cannot(&part.target, &error))?;
        }
        Ok(())
    }
}

impl Part {
    /// Writes the bytes under this name in the folder of their place, for a name is changed at once only
    /// there. A link is followed, so that it stays a link.
    fn write(path: &Path, bytes: &[u8], name: &str) -> io::Result<Part> {
        let target = fs::canonicalize(path).unwrap_or_else(|_| path.to_path_buf());
        let standing = fs::metadata(&target).ok();
        if standing.is_some() {
            // one that may not be written is not replaced either
            OpenOptions::new().write(true).open(&target)?;
        }
        let written = target.with_file_name(name);
        let mut file = File::create_new(&written)?;
        let part = Part {
            written,
            target,
            placed: false,
        };
        file.write_all(bytes)?;
        if let Some(about) = standing {
            file.set_permissions(about.permissions())?;
        }
        Ok(part)
    }

    /// Puts the file in its place, in one step.
    fn place(&mut self) -> io::Result<()> {
        fs::rename(&self.written, &self.target)?;
        self.placed = true;
        Ok(())
    }
}

impl Drop for Part {
    fn drop(&mut self) {
        if !self.placed {
            let _ = fs::remove_file(&self.written);
        }
    }
}

fn cannot(path: &Path, error: &io::Error) -> Failure {
    let why = match error.kind() {
        io::ErrorKind::NotFound => "its folder is not there".to_string(),
        io::ErrorKind::PermissionDenied => {
            "it may not be changed, or its folder may not, where it is written first".to_string()
        }
        _ => error.to_string(),
    };
    Failure::Failed(format!("{}: cannot be written: {why}", shown(path)))
}
