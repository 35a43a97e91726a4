//! Where the records go.
use crate::failure::Failure;
use crate::files;
use crate::output::ends_in;
use crate::vcd::{Keep, Plan, Taken};
use crate::words;
use std::collections::{BTreeSet, HashSet};
use std::ffi::OsString;
use std::fs;
use std::path::{Path, PathBuf};

/// The file of each record: the output itself, or for windows one for each, by the time of its first
/// sample. The times are whole numbers of one unit with as many digits each, so that the names are in
/// the order of the times.
pub fn outputs(output: &Path, plan: &Plan, records: &[Taken]) -> Result<Vec<PathBuf>, Failure> {
    if !matches!(plan.keep, Keep::Windows(_)) {
        return Ok(vec![output.to_path_buf()]);
    }
    let first = |taken: &Taken| taken.times.first().copied().unwrap_or_default();
    let times: Vec<u128> = records.iter().map(first).collect();
    let (unit, size) = plan.scale.unit_of(&times);
    let whole = |time: &u128| time.checked_div(size).unwrap_or_default();
    let last = times.last().map_or(0, whole);
    let digits = last.to_string().len();
    let stamps = times
        .iter()
        .map(|time| format!("{:0digits$}{unit}", whole(time)));
    stamps.map(|stamp| stamped(output, &stamp)).collect()
}

/// `run.svw` as `run-0015ns.svw`.
fn stamped(output: &Path, stamp: &str) -> Result<PathBuf, Failure> {
    let Some(stem) = output.file_stem() else {
        let words = format!("-o {} names no file", files::shown(output));
        return Err(Failure::Usage(words));
    };
    let mut name = OsString::from(stem);
    name.push(format!("-{stamp}"));
    if let Some(ending) = output.extension() {
        name.push(".");
        name.push(ending);
    }
    Ok(output.with_file_name(name))
}

/// That records of other windows stand beside these, which an earlier run left, where they do: a folder is judged
/// with all of them.
pub fn older(outputs: &[PathBuf]) -> Option<String> {
    let first = outputs.first()?;
    let begins = name(first).rsplit_once('-')?.0.to_string() + "-";
    let folder = first.parent().filter(|folder| *folder != Path::new(""));
    let folder = folder.unwrap_or(Path::new("."));
    let entries = fs::read_dir(folder)
        .ok()?
        .flatten()
        .map(|entry| entry.path());
    let records = entries.filter(|path| ends_in(path, ".svw") && name(path).starts_with(&begins));
    let new: HashSet<String> = outputs.iter().map(|output| name(output)).collect();
    let older: BTreeSet<String> = records.map(|path| name(&path)).collect();
    let mut older = older.into_iter().filter(|name| !new.contains(name));
    let (one, more) = (older.next()?, older.count() + 1);
    Some(format!(
        "{} of the name {begins}*.svw stood there before and {}, such as {one}: kit batch of the folder judges them too",
        words::count(more, "other record"),
        if more == 1 { "stays" } else { "stay" },
    ))
}

/// The name of a file, without its folders.
fn name(path: &Path) -> String {
    files::shown(Path::new(path.file_name().unwrap_or_default()))
}
