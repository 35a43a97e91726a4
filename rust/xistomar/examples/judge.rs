//! Judges a table file on a record file: `cargo run --example judge -- TABLE RECORD`.
//!
//! Prints the program's line, such as `level 1 tested yes` or `refused 9 at 3`, and what it means.
//! The status is 0 for a level, 1 for a refusal, and 2 where a file is missing or cannot be read, or
//! the output cannot be written.
use std::env;
use std::fs::File;
use std::io::{self, Read, Write};
use std::path::{Path, PathBuf};
use std::process::ExitCode;
use xistomar::{Judge, Judgement, Refusal};

/// The bytes read of a file. A table has at most 486 and a record 510: the rest of a longer file
/// does not change its refusal.
const MOST: u64 = 512;

fn main() -> ExitCode {
    let names: Vec<PathBuf> = env::args_os().skip(1).map(PathBuf::from).collect();
    let [table, record] = names.as_slice() else {
        eprintln!("usage: judge TABLE RECORD");
        return ExitCode::from(2);
    };
    answer(table, record).unwrap_or_else(|message| {
        eprintln!("judge: {message}");
        ExitCode::from(2)
    })
}

/// Judges the two files, prints the answer and gives its status; or what went wrong.
fn answer(table: &Path, record: &Path) -> Result<ExitCode, String> {
    let (table, record) = read_both(table, record)?;
    let answer = judge(&table, &record);
    let failed = |error| format!("cannot write the answer: {error}");
    report(&answer, &mut io::stdout()).map_err(failed)?;
    Ok(match answer {
        Ok(_) => ExitCode::SUCCESS,
        Err(_) => ExitCode::FAILURE,
    })
}

/// The bytes of both files, or what is wrong with the first that cannot be read.
fn read_both(table: &Path, record: &Path) -> Result<(Vec<u8>, Vec<u8>), String> {
    let read = |kind: &str, name: &Path| {
        let failed = |error| format!("cannot read the {kind} {}: {error}", name.display());
        read_file(name).map_err(failed)
    };
    Ok((read("table", table)?, read("record", record)?))
}

fn read_file(name: &Path) -> io::Result<Vec<u8>> {
    let mut bytes = Vec::new();
    File::open(name)?.take(MOST).read_to_end(&mut bytes)?;
    Ok(bytes)
}

/// Judges the table on the record. The table's refusals come before the record's: of a refused
/// record no samples are judged, and that gives the table's refusal if there is one.
fn judge(table: &[u8], record: &[u8]) -> Result<Judgement, Refusal> {
    let samples = xistomar::samples(record);
    let judged = samples.as_deref().unwrap_or_default();
    let judgement = Judge::new().judge(table, judged)?;
    samples.and(Ok(judgement))
}

/// Prints the program's line and what it means.
fn report(answer: &Result<Judgement, Refusal>, out: &mut impl Write) -> io::Result<()> {
    match answer {
        Ok(judgement) => {
            writeln!(out, "{judgement}")?;
            let level = judgement.level;
            writeln!(out, "{level}: {}", level.meaning())?;
            if !judgement.tested {
                let meaning = "from the first sample on no strong or weak was reached";
                writeln!(out, "not tested: {meaning}")?;
            }
        }
        Err(refusal) => {
            writeln!(out, "refused {} at {}", refusal.number(), refusal.node())?;
            writeln!(out, "{}", refusal.reason())?;
        }
    }
    out.flush()
}
