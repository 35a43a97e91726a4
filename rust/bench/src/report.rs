//! The tables that are printed.
use crate::cases::{self, Case};
use crate::compare;
use crate::engines::Engine;
use crate::expanding;
use crate::measure::{times, Effort};
use crate::nodes::clocked_count;
use crate::past;
use crate::summary::Summary;
use crate::worst::{self, Worst};

/// Compares the engines on every case, and then measures them.
pub fn all(effort: Effort) -> Result<(), String> {
    let main = cases::all();
    let by_n = cases::growing_n();
    let by_m = cases::growing_m();
    let past_13 = past::all();
    let worst = worst::ALL.map(|worst| growing(&worst));
    let every = main.iter().chain(&by_n).chain(&by_m);
    for case in every.chain(worst.iter().flatten()) {
        compare::agree(case)?;
    }
    for case in &past_13 {
        compare::past(case)?;
    }
    for table in expanding::all() {
        expanding::agree(&table)?;
    }
    introduce(effort);
    engines(&main, effort);
    worst_growth(&worst, effort);
    growth("Time against n, one random table", &by_n, effort);
    growth("Time against m, random tables", &by_m, effort);
    plain_alone(&past_13, effort);
    plain_growth(effort);
    expanding::report(effort);
    Ok(())
}

/// What is measured, and how.
fn introduce(effort: Effort) {
    println!("The engines agree on every case, answers and all words of the workspace; of the plain judge, which leaves no words, the answers.");
    println!("Workspaces of 7,800 words are allocated once per engine and not cleared between calls: the judge writes all its words itself.");
    println!(
        "Times are nanoseconds of one call, the median of {} rounds; a case of several inputs is averaged over them.",
        effort.rounds
    );
    println!("`library` is the judge and `plain` the plain judge, both of the library.");
    println!(
        "`its level` is second without the rows; of these two slow ones it is the median of {} rounds.\n",
        effort.slow_rounds()
    );
}

fn engines(cases: &[Case], effort: Effort) {
    println!(
        "{:22} {:>5} {:>3} {:>9} {:>9} {:>13} {:>9} {:>14} {:>11} {:>11} {:>15} {:>11}",
        "case",
        "m",
        "n",
        "library",
        "rows",
        "library/rows",
        "plain",
        "plain/library",
        "plain/rows",
        "second",
        "second/library",
        "its level"
    );
    let mut summary = Summary::default();
    for case in cases {
        let [library, plain, rows, second, level] = times(Engine::ALL, case, effort);
        summary.add(&case.name, library / rows);
        println!(
            "{:22} {:>5} {:>3} {:>9.0} {:>9.0} {:>13.2} {:>9.0} {:>14.2} {:>11.2} {:>11.0} {:>15.1} {:>11.0}",
            case.name,
            average_m(case),
            case.inputs[0].samples.len(),
            library,
            rows,
            library / rows,
            plain,
            plain / library,
            plain / rows,
            second,
            second / library,
            level
        );
    }
    println!("{}", summary.line("library/rows"));
}

/// The nodes and the samples of the worst tables, as many as there can be last.
const SIZES: [(usize, usize); 5] = [(30, 63), (60, 63), (120, 63), (120, 31), (120, 15)];

/// A worst table in all sizes.
fn growing(worst: &Worst) -> [Case; 5] {
    SIZES.map(|(m, n)| worst.case(format!("worst {} of {m} nodes, n = {n}", worst.name), m, n))
}

/// How time grows with m and n on the worst table of each operator.
fn worst_growth(cases: &[[Case; 5]], effort: Effort) {
    println!("\nTime against m and n, the worst table found for each operator: library, and library/rows");
    let sizes = SIZES.map(|(m, n)| format!("{:>16}", format!("m = {m}, n = {n}")));
    println!("{:10} {}", "operator", sizes.join(" "));
    for (worst, cases) in worst::ALL.iter().zip(cases) {
        let taken = cases.each_ref().map(|case| {
            let [library, rows] = times([Engine::Library, Engine::Rows], case, effort);
            format!("{library:>10.0} {:>5.2}", library / rows)
        });
        println!("{:10} {}", worst.name, taken.join(" "));
    }
}

fn growth(title: &str, cases: &[Case], effort: Effort) {
    println!("\n{title}");
    println!(
        "{:>5} {:>3} {:>9} {:>9} {:>13} {:>9} {:>14}",
        "m", "n", "library", "rows", "library/rows", "plain", "plain/library"
    );
    for case in cases {
        let engines = [Engine::Library, Engine::Rows, Engine::Plain];
        let [library, rows, plain] = times(engines, case, effort);
        println!(
            "{:>5} {:>3} {:>9.0} {:>9.0} {:>13.2} {:>9.0} {:>14.2}",
            average_m(case),
            case.inputs[0].samples.len(),
            library,
            rows,
            library / rows,
            plain,
            plain / library
        );
    }
}

/// The tables that only the plain judge takes.
fn plain_alone(cases: &[Case], effort: Effort) {
    println!("\nThe plain judge where the judge refuses with 13; m is the count that its rewriting would have");
    println!(
        "{:22} {:>5} {:>5} {:>3} {:>9}",
        "case", "nodes", "m", "n", "plain"
    );
    let mut slowest: f64 = 0.0;
    for case in cases {
        let [plain] = times([Engine::Plain], case, effort);
        println!(
            "{:22} {:>5} {:>5} {:>3} {:>9.0}",
            case.name,
            case.inputs[0].nodes(),
            average(case, |input| clocked_count(&input.table)),
            case.inputs[0].samples.len(),
            plain
        );
        slowest = slowest.max(plain);
    }
    println!("The slowest takes {:.3} ms.", slowest / 1e6);
}

/// How the plain judge's time grows with the nodes and the samples.
fn plain_growth(effort: Effort) {
    println!("\nThe plain judge against nodes and n, random clocked tables");
    let samples = past::SAMPLES.map(|n| format!("{:>9}", format!("n = {n}")));
    println!("{:>5} {}", "nodes", samples.join(" "));
    for (nodes, row) in past::NODES.into_iter().zip(past::growing()) {
        let taken = row.each_ref().map(|case| {
            let [plain] = times([Engine::Plain], case, effort);
            format!("{plain:>9.0}")
        });
        println!("{nodes:>5} {}", taken.join(" "));
    }
}

/// The rewritten count, averaged over the inputs.
fn average_m(case: &Case) -> usize {
    average(case, cases::Input::m)
}

/// A number of each input, averaged.
fn average(case: &Case, number: impl Fn(&cases::Input) -> usize) -> usize {
    case.inputs.iter().map(number).sum::<usize>() / case.inputs.len()
}
