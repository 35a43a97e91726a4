//! The library against `second`, on cases that are listed and on cases that are new each time.
use agree::{compare_listed, library_answer, Run};
use std::process::ExitCode;
use std::time::Instant;

fn main() -> ExitCode {
    match compare() {
        Ok(()) => ExitCode::SUCCESS,
        Err(message) => {
            println!("agree: {message}");
            ExitCode::FAILURE
        }
    }
}

fn compare() -> Result<(), String> {
    let listed = compare_listed(library_answer, second::answer)?;
    println!("agree: no difference in {listed} listed cases");
    let run = Run::from_environment()?;
    println!("agree: {run}");
    let start = Instant::now();
    let summary = run
        .compare(library_answer, second::answer)
        .map_err(|difference| difference.to_string())?;
    let seconds = start.elapsed().as_secs_f64();
    println!("{summary}");
    let lacking = summary.lacking(run.cases);
    if !lacking.is_empty() {
        let lacking = lacking.join("; ");
        return Err(format!("too little was compared by {run}: {lacking}"));
    }
    let cases = summary.cases();
    println!("agree: no difference in {cases} cases, {seconds:.1} seconds");
    Ok(())
}
