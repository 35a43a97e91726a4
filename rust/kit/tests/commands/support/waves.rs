//! Running `kit record` on a waveform.
use super::{kit, Folder, Ran};
use std::ffi::OsStr;
use std::fs;

/// Runs `kit record` on a waveform, with `out.svw` in the folder for the record.
pub fn record(folder: &Folder, waveform: impl AsRef<OsStr>, words: &[&str]) -> Ran {
    let output = folder.path("out.svw");
    let words = words.iter().map(OsStr::new);
    let words = words.chain(["-o", &output].map(OsStr::new));
    kit([OsStr::new("record"), waveform.as_ref()]
        .into_iter()
        .chain(words))
}

/// The samples that `kit record` wrote, read through the proved library.
pub fn samples(folder: &Folder) -> Vec<u64> {
    let bytes = fs::read(folder.path("out.svw")).expect("there is a record");
    xistomar::samples(&bytes).expect("the record is accepted")
}
