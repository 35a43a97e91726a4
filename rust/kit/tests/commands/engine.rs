//! `--engine`: the two engines of `kit judge`, `kit picture` and `kit batch`, on tables that both judge and on one that only the plain
//! one does.
use crate::support::{example, kit, record, table, Folder, Ran};
use second::{random_case, Case};
use std::fs;

/// The drive of examples/limits.txt, 149 nodes with its clocks rewritten away, and a record of it.
fn limits(command: &str, more: &[&str]) -> Ran {
    let [table, record] = ["limits.txt", "write.svw"].map(example);
    kit([&[command, &table, &record], more].concat())
}

/// The flush of the examples, which both engines judge.
fn flush(command: &str, more: &[&str]) -> Ran {
    let [table, record] = ["flush.txt", "flush-open.svw"].map(example);
    kit([&[command, &table, &record], more].concat())
}

const ALONE: &str =
    "\nJudged by the plain engine alone: the fast one refuses the table with 13, expanded or rewritten count over 120.\n";
const HINT: &str =
    "The plain engine judges it: leave out --engine fast, and --asked, which is read off the fast engine's rows.\n";

#[test]
fn past_13_the_plain_engine_judges_and_it_is_said() {
    let said = limits("judge", &[]);
    assert_eq!((said.status, said.err.as_str()), (0, ""));
    assert_eq!(said.line(), "level 3 tested yes");
    // writes at ticks 1 and 9 are done at 7 and 13, and at tick 15 the supply drops
    let levels = "
  sample  start   0   1   2   3   4   5   6   7   8   9  10  11  12  13  14  15
  level       2   2   2   2   1   1   1   1   2   2   2   2   1   1   2   2   3
";
    assert!(said.out.contains(levels), "{}", said.out);
    assert!(
        said.out.contains("\nTested: the record put"),
        "{}",
        said.out
    );
    let untold = "Which part was decisive and which |-> were asked are read off the fast engine's rows, and not told.\n";
    let end = format!("\nClosed at sample 15: a longer record never overturns it.{ALONE}{untold}");
    assert!(
        said.out.contains(&format!("{end}\nTable: ")),
        "{}",
        said.out
    );
    assert!(!said.out.contains("Decisive") && !said.out.contains("sked:"));
}

#[test]
fn past_13_what_cannot_be_told_is_null() {
    let said = limits("judge", &["--json", "--require", "3", "--tested"]);
    assert_eq!(said.status, 0);
    for part in [
        r#"{"line":"level 3 tested yes","engine":"plain","level":3,"#,
        r#""tested":true,"implications":null,"once":false,"#,
        r#""closed":15,"decisive":null,"#,
        r#""reached":true},"refused":null,"#,
    ] {
        assert!(said.out.contains(part), "{part}: {}", said.out);
    }
}

#[test]
fn the_fast_engine_alone_refuses_with_13() {
    let said = limits("judge", &["--engine", "fast"]);
    assert_eq!((said.status, said.line()), (3, "refused 13 at 0"));
    assert!(
        said.out.contains(&format!("over 120.\n{HINT}")),
        "{}",
        said.out
    );
    let json = limits("judge", &["--engine=fast", "--json"]);
    let part = r#"{"line":"refused 13 at 0","engine":"fast","level":null,"#;
    assert!(json.status == 3 && json.out.starts_with(part), "{json:?}");

    let folder = Folder::new();
    let output = folder.path("none.svg");
    for said in [
        limits("batch", &["--engine", "fast"]),
        limits("picture", &["--engine", "fast", "-o", &output]),
    ] {
        assert_eq!((said.status, said.out.as_str()), (3, ""));
        let message = format!("refused 13 at 0: expanded or rewritten count over 120\n{HINT}");
        assert!(said.err.ends_with(&message), "{}", said.err);
    }
    assert!(!folder.join("none.svg").exists());
}

/// Which |-> were asked is read off the rows of the fast engine.
#[test]
fn asked_needs_the_fast_engine() {
    let said = limits("judge", &["--asked"]);
    assert_eq!((said.status, said.line()), (3, "refused 13 at 0"));
    assert!(said.out.contains(HINT), "{}", said.out);
    let said = limits("batch", &["--asked"]);
    assert_eq!((said.status, said.out.as_str()), (3, ""));
    assert!(said.err.ends_with(HINT), "{}", said.err);
    for command in ["judge", "batch"] {
        let said = limits(command, &["--engine", "plain", "--asked"]);
        assert_eq!((said.status, said.out.as_str()), (2, ""));
        assert!(said
            .err
            .contains("--asked needs the rows of the fast engine"));
    }
    // an assertion without |-> leaves none unasked, whoever judges it
    let folder = Folder::new();
    let next = folder.file(
        "next.txt",
        format!("signals a\n@(a) {}strong(a)\n", "nexttime ".repeat(9)),
    );
    let ticks = folder.file("r.svw", record(&[1; 10]));
    let said = kit(["judge", &next, &ticks, "--asked"]);
    assert_eq!((said.status, said.line()), (0, "level 3 tested yes"));
    assert!(said.out.contains("\nRequired asked: reached.\n\n"));
    assert!(said.out.contains("\nWhich part was decisive is read off"));
    let json = kit(["judge", &next, &ticks, "--asked", "--json"]);
    assert!(json.out.contains(r#""implications":[],"#), "{}", json.out);
    assert_eq!(kit(["batch", &next, &ticks, "--asked"]).status, 0);
}

#[test]
fn both_is_the_default_and_says_what_the_fast_one_says() {
    let both = flush("judge", &[]);
    assert_eq!(flush("judge", &["--engine", "both"]), both);
    assert_eq!(flush("judge", &["--engine", "fast"]), both);
    for name in ["both", "fast", "plain"] {
        let json = flush("judge", &["--json", "--engine", name]).out;
        let part = format!(r#"{{"line":"level 1 tested yes","engine":"{name}","level":1,"#);
        assert!(json.starts_with(&part), "{json}");
    }
    let plain = flush("judge", &["--engine", "plain"]);
    let until = |said: &Ran| said.out.split("\n\n").nth(2).map(str::to_string);
    assert_eq!(plain.line(), both.line());
    assert_eq!(until(&plain), until(&both));
    assert!(plain.out.contains("\nJudged by the plain engine alone.\n"));
}

#[test]
fn an_engine_has_one_of_three_names() {
    for command in ["judge", "batch"] {
        let said = flush(command, &["--engine", "slow"]);
        assert_eq!((said.status, said.out.as_str()), (2, ""));
        let message = "--engine is both, fast or plain, not 'slow'";
        assert!(said.err.contains(message), "{}", said.err);
    }
}

/// What marks a sample at which a |-> was asked.
const ASKED: &str = "class=\"asked\"";

#[test]
fn a_picture_says_that_the_plain_engine_drew_it_alone() {
    let folder = Folder::new();
    let output = folder.path("limits.svg");
    let said = limits("picture", &["-o", &output]);
    assert_eq!(said.status, 0);
    let line = "level 3 tested yes, 18 samples, judged by the plain engine alone\n";
    assert!(said.out.ends_with(line), "{}", said.out);
    let drawn = fs::read_to_string(&output).unwrap();
    assert!(drawn.contains("Judged by the plain engine alone: the fast one refuses"));
    assert!(!drawn.contains(ASKED), "a row for a |-> is drawn");
    let said = flush("picture", &["-o", &output]);
    assert!(said.out.ends_with("level 1 tested yes, 3 samples\n"));
    let drawn = fs::read_to_string(&output).unwrap();
    assert!(drawn.contains(ASKED), "no row for a |-> is drawn");
}

#[test]
fn a_report_says_that_the_plain_engine_judged_alone() {
    let said = limits("batch", &["--list"]);
    assert_eq!((said.status, said.err.as_str()), (0, ""));
    let line = format!("{}: level 3 tested yes\n\n", example("write.svw"));
    assert!(said.out.starts_with(&line), "{}", said.out);
    assert!(said.out.ends_with(ALONE), "{}", said.out);
    let row = |name: &str| said.out.lines().find(|line| line.starts_with(name));
    let untold = row("never asked").unwrap_or_default();
    assert!(
        untold.ends_with("-  not told: the plain engine judged alone"),
        "{untold}"
    );
    let both = flush("batch", &[]);
    assert!(!both.out.contains("engine") && !both.out.contains("differ"));
}

/// The levels of the plain engine are those of both, whatever the table; where the fast one refuses with 13 alone, both have the plain one's.
#[test]
fn the_engines_say_the_same_of_random_tables() {
    let folder = Folder::new();
    let (mut judged, mut past) = (0, 0);
    for seed in 0..700 {
        let (Case::Judge { table, samples, .. } | Case::Plain { table, samples }) =
            random_case(seed)
        else {
            continue;
        };
        if samples.len() > 63 {
            continue;
        }
        let files = [
            folder.file("t.svt", table),
            folder.file("r.svw", record(&samples)),
        ];
        let [both, fast, plain] = ["both", "fast", "plain"]
            .map(|engine| kit(["judge", &files[0], &files[1], "--json", "--engine", engine]));
        let levels = |said: &Ran| {
            said.out
                .split(r#""samples""#)
                .nth(1)
                .map(|rest| rest.split(r#","decisive""#).next().map(str::to_string))
        };
        assert_eq!(levels(&both), levels(&plain), "seed {seed}");
        assert_eq!(both.status, plain.status, "seed {seed}");
        let past_13 = |said: &Ran| said.out.starts_with(r#"{"line":"refused 13 at 0""#);
        // where derived operators are written out to too much, both refuse with 13
        if past_13(&fast) && !past_13(&plain) {
            assert!(both.out.contains(r#""engine":"plain""#), "seed {seed}");
            past += usize::from(both.status == 0);
        } else {
            assert_eq!(
                fast.out.replace(r#""engine":"fast""#, r#""engine":"both""#),
                both.out
            );
            judged += usize::from(both.status == 0);
        }
    }
    assert!(judged > 150 && past > 20, "{judged} {past}");
}

/// A sequence is refused by each engine with the same number, and so is a table with a wrong node.
#[test]
fn a_refusal_is_the_same_by_each_engine() {
    let folder = Folder::new();
    let ticks = folder.file("r.svw", record(&[1]));
    for (nodes, line) in [
        (vec![[1, 0, 0], [16, 0, 0]], "refused 12 at 0"),
        (vec![[1, 0, 0], [16, 0, 0], [32, 0, 0]], "refused 6 at 2"),
    ] {
        let refused = folder.file("t.svt", table(&nodes));
        for engine in ["both", "fast", "plain"] {
            let said = kit(["judge", &refused, &ticks, "--engine", engine]);
            assert_eq!((said.status, said.line()), (3, line));
        }
    }
}
