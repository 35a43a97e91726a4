//! The command line of the second opinion.

use second::{answer, answer_text, line, parse_case, stored};
use std::io::{self, BufRead, Write};
use std::process::ExitCode;

const HELP: &str = "\
second: a second opinion on clocked assertions

second stored SEED COUNT CASES_FILE ANSWERS_FILE
    writes the cases that are listed and COUNT random ones drawn from SEED,
    and their answers
second answer < CASES
    reads cases, one a line, and prints their answers
second judge TABLE RECORD
    prints the program's line for a table file and a record file
second --help
    prints this text

Status: 0 when all went well, 1 for a malformed line of cases,
2 for bad usage and for files that cannot be read or written.
";

/// A message with the status to end with.
type Failure = (u8, String);

fn main() -> ExitCode {
    let arguments: Vec<String> = std::env::args_os()
        .skip(1)
        .map(|argument| argument.to_string_lossy().into_owned())
        .collect();
    let words: Vec<&str> = arguments.iter().map(String::as_str).collect();
    let result = match words[..] {
        ["--help"] | ["-h"] => print(HELP),
        ["stored", seed, count, cases, answers] => run_stored(seed, count, cases, answers),
        ["answer"] => run_answer(),
        ["judge", table, record] => run_judge(table, record),
        _ => Err((2, "bad usage: see second --help".to_string())),
    };
    match result {
        Ok(()) => ExitCode::SUCCESS,
        Err((status, message)) => {
            let _ = writeln!(io::stderr(), "second: {message}");
            ExitCode::from(status)
        }
    }
}

/// Writes a stored set of cases and answers.
fn run_stored(seed: &str, count: &str, cases: &str, answers: &str) -> Result<(), Failure> {
    let number = |text: &str| {
        let parsed = text.parse::<u64>();
        parsed.map_err(|_| (2, format!("{text:?} is not a number")))
    };
    let (case_lines, answer_lines) = stored(number(seed)?, number(count)?);
    for (file, lines) in [(cases, case_lines), (answers, answer_lines)] {
        std::fs::write(file, lines).map_err(|error| (2, format!("{file}: {error}")))?;
    }
    Ok(())
}

/// Answers the cases on standard input.
fn run_answer() -> Result<(), Failure> {
    for (index, read) in io::stdin().lock().lines().enumerate() {
        let place = index + 1;
        let text = read.map_err(|error| (1, format!("line {place}: {error}")))?;
        let (label, case) =
            parse_case(&text).map_err(|problem| (1, format!("line {place}: {problem}")))?;
        print(&(answer_text(label, &answer(&case)) + "\n"))?;
    }
    Ok(())
}

/// Prints the program's line for two files.
fn run_judge(table: &str, record: &str) -> Result<(), Failure> {
    let mut input = Vec::new();
    for file in [table, record] {
        let bytes = std::fs::read(file).map_err(|error| (2, format!("{file}: {error}")))?;
        input.extend(bytes);
    }
    print(&(line(&input) + "\n"))
}

/// Prints text; a closed output is a failure and no panic.
fn print(text: &str) -> Result<(), Failure> {
    let written = io::stdout().write_all(text.as_bytes());
    written.map_err(|error| (2, error.to_string()))
}
