//! Measures both proved judges beside the rules of the fast one in safe Rust and beside the naive second program, and the proved expander beside the same in safe Rust.
//!
//! `bench` measures all, `bench --quick` with fewer rounds; `bench --list` names the cases, `bench --list-expanding` the tables that are expanded; `bench --only ENGINE
//! CASE CALLS` and `bench --only-expand EXPANDER TABLE CALLS` only make so many calls of one of them, for a program that counts instructions.
mod cases;
mod compare;
mod engines;
mod expanding;
mod measure;
mod nodes;
mod past;
mod random;
mod report;
mod summary;
mod worst;

use engines::Engine;
use expanding::Expander;
use std::process::ExitCode;

const USAGE: &str =
    "usage: bench [--quick | --list | --only ENGINE CASE CALLS | --list-expanding | --only-expand EXPANDER TABLE CALLS]
  ENGINE is library, plain, rows, second or level, EXPANDER library or rows; --list and --list-expanding print the names of the cases and of the tables";

fn main() -> ExitCode {
    let given: Vec<String> = std::env::args().skip(1).collect();
    let given: Vec<&str> = given.iter().map(String::as_str).collect();
    let done = match given[..] {
        [] => report::all(measure::FULL),
        ["--quick"] => report::all(measure::QUICK),
        ["--list"] => list(),
        ["--only", engine, case, calls] => only(engine, case, calls),
        ["--list-expanding"] => list_expanding(),
        ["--only-expand", expander, table, calls] => only_expand(expander, table, calls),
        _ => Err(USAGE.to_string()),
    };
    match done {
        Ok(()) => ExitCode::SUCCESS,
        Err(message) => {
            eprintln!("bench: {message}");
            ExitCode::FAILURE
        }
    }
}

fn list() -> Result<(), String> {
    for case in cases::all() {
        println!("{}", case.name);
    }
    Ok(())
}

fn list_expanding() -> Result<(), String> {
    for table in expanding::all() {
        println!("{}", table.name);
    }
    Ok(())
}

fn only_expand(expander: &str, table: &str, calls: &str) -> Result<(), String> {
    let expander = Expander::named(expander).ok_or(USAGE)?;
    let table = expanding::all()
        .into_iter()
        .find(|known| known.name == table)
        .ok_or_else(|| format!("no table {table}; --list-expanding names them"))?;
    let calls = calls.parse().map_err(|_| USAGE)?;
    expander.call(&table, calls, &mut [0; 486]);
    Ok(())
}

fn only(engine: &str, case: &str, calls: &str) -> Result<(), String> {
    let engine = Engine::named(engine).ok_or(USAGE)?;
    let case = cases::all()
        .into_iter()
        .chain(past::all())
        .find(|known| known.name == case)
        .ok_or_else(|| format!("no case {case}; --list names them"))?;
    let calls = calls.parse().map_err(|_| USAGE)?;
    measure::call(engine, &case, calls, &mut engines::workspace());
    Ok(())
}
