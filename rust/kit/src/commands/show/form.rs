//! The form that tables and records share: a mark, a version, a count, and parts of one size.
use crate::files::MOST;
use crate::refusals::{self, Kind};
use crate::words;
use xistomar::Refusal;

/// The form of a kind of file.
pub struct Form {
    /// What such a file is called.
    called: &'static str,
    /// The bytes with which it begins.
    mark: &'static [u8; 3],
    /// The versions that are known.
    versions: &'static str,
    /// The bytes of each part.
    part: usize,
}

/// A table, whose parts are nodes.
pub const TABLE: Form = Form {
    called: "table",
    mark: b"SVT",
    versions: "1, 2 or 3",
    part: 4,
};

/// A record, whose parts are samples.
pub const RECORD: Form = Form {
    called: "record",
    mark: b"SVW",
    versions: "1",
    part: 8,
};

/// The program's line, the words of docs/FORMAT.md (Refusals), and what was found.
pub fn report(refusal: Refusal, found: &str) -> String {
    let (line, reason) = (refusals::line(refusal), refusal.reason());
    format!("{line}\n{reason}\n{found}\n")
}

/// What was found in a file whose form is refused.
pub fn found(bytes: &[u8], form: &Form, refusal: Refusal) -> String {
    let Form {
        called,
        versions,
        part,
        ..
    } = form;
    let (count, length) = (count(bytes), length(bytes));
    match refusal.number() {
        1 => format!("the file has {length}, and a {called} at least 6"),
        2 => mark(bytes, form),
        3 => {
            let version = version(bytes);
            format!("the version is {version}, and that of a {called} is {versions}")
        }
        5 => {
            let wanted = 6 + part * usize::from(count);
            format!(
                "a {called} with the count {count} has {wanted} bytes, and the file has {length}"
            )
        }
        _ => format!("the count is {count}"),
    }
}

/// The version that stands in the file.
pub fn version(bytes: &[u8]) -> u16 {
    match bytes {
        [_, _, _, low, high, ..] => u16::from_le_bytes([*low, *high]),
        _ => 0,
    }
}

/// The count that stands in the file.
pub fn count(bytes: &[u8]) -> u8 {
    bytes.get(5).copied().unwrap_or_default()
}

/// The length of a file of which at most [`MOST`] bytes were read.
fn length(bytes: &[u8]) -> String {
    let read = words::count(bytes.len(), "byte");
    match bytes.len() as u64 {
        MOST.. => format!("{read} or more"),
        _ => read,
    }
}

/// The three bytes that stand where the mark is due.
fn mark(bytes: &[u8], form: &Form) -> String {
    let (called, due) = (form.called, form.mark);
    let mark = bytes.get(..3).unwrap_or_default();
    let hint = match refusals::kind(bytes) {
        Kind::Table => ", the mark of a table",
        Kind::Record => ", the mark of a record",
        Kind::Text if due == TABLE.mark => {
            ": this may be a text, and the name of a text ends in .txt"
        }
        _ => "",
    };
    let (due_hex, hex, due) = (hex(due), hex(mark), String::from_utf8_lossy(due));
    format!("a {called} begins with {due_hex}, which is {due}, and this file with {hex}{hint}")
}

fn hex(bytes: &[u8]) -> String {
    let hex: Vec<String> = bytes.iter().map(|byte| format!("{byte:02x}")).collect();
    hex.join(" ")
}
