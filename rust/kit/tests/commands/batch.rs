//! `kit batch`: which records it finds, what it says of them, and its statuses.
use crate::support::{example, example_bytes, examples, kit, kit_to, table};
use crate::support::{Failing, Folder, Ran};
use std::ffi::{OsStr, OsString};
use std::io::ErrorKind;
use std::os::unix::ffi::OsStrExt;
use std::os::unix::fs::symlink;
use std::path::{Path, PathBuf};
use std::process::Command;

/// The words of a batch by examples/flush.svt.
fn words(more: &[&OsStr]) -> Vec<OsString> {
    let table = example("flush.svt");
    let first = ["batch", &table].map(OsStr::new);
    let words = first.into_iter().chain(more.iter().copied());
    words.map(OsStr::to_owned).collect()
}

fn batch<T: AsRef<OsStr>>(more: &[T]) -> Ran {
    let more: Vec<&OsStr> = more.iter().map(AsRef::as_ref).collect();
    kit(words(&more))
}

/// The count in the report's row with this label.
fn count(ran: &Ran, label: &str) -> usize {
    let row = ran.out.lines().find(|line| {
        let rest = line.trim_start().strip_prefix(label);
        rest.is_some_and(|rest| rest.starts_with("  "))
    });
    let row = row.unwrap_or_else(|| panic!("no row {label} in {}", ran.out));
    let number = row.trim_start().strip_prefix(label).unwrap();
    number.split_whitespace().next().unwrap().parse().unwrap()
}

/// The lines of `--list`, with the names cut to what follows the folder.
fn listed(ran: &Ran, folder: &Path) -> Vec<String> {
    let before = format!("{}/", folder.display());
    let lines = ran.out.lines().take_while(|line| !line.is_empty());
    lines.map(|line| line.replace(&before, "")).collect()
}

/// A folder with records of every kind and with what is none.
fn mixed() -> Folder {
    let run = Folder::new();
    run.file("a.svw", example_bytes("flush.svw"));
    run.file("b/1.svw", example_bytes("flush-open.svw"));
    run.file("b/2.svw", example_bytes("flush-broken.svw"));
    run.file("b/deep/3.svw", example_bytes("flush-unasked.svw"));
    run.file("b.svw", example_bytes("flush.svw"));
    run.file("torn.svw", &example_bytes("flush.svw")[..5]);
    run.file("torn2.svw", &example_bytes("flush.svw")[..53]);
    run.file("notes.txt", "the supply was cut 7 times");
    run.file("UPPER.SVW", example_bytes("flush.svw"));
    run
}

#[test]
fn a_folder_is_searched_in_order() {
    let run = mixed();
    let ran = batch(&[OsStr::new("--list"), run.as_os_str()]);
    // folder b stands before b.svw, as its name does
    let lines = [
        "a.svw: level 2 tested yes",
        "b/1.svw: level 1 tested yes",
        "b/2.svw: level 0 tested yes",
        "b/deep/3.svw: level 2 tested yes, a |-> never asked",
        "b.svw: level 2 tested yes",
        "torn.svw: refused 1 at 0",
        "torn2.svw: refused 5 at 0",
    ];
    assert_eq!(listed(&ran, &run), lines);
    let told = "kit batch: 1 of 7 is broken, and no level was required, so the status does not say so: --require 1 \
                makes it 1\n";
    assert_eq!((ran.status, ran.err.as_str()), (3, told));
}

#[test]
fn the_report_counts() {
    let run = mixed();
    let gone = run.join("gone.svw");
    let ran = batch(&[run.as_os_str(), gone.as_os_str()]);
    let counts = [
        ("held", 3),
        ("level 3", 0),
        ("level 2", 3),
        ("open, level 1", 1),
        ("broken, level 0", 1),
        ("refused", 2),
        ("refused 1", 1),
        ("refused 5", 1),
        ("unreadable", 1),
        ("total", 8),
        ("not tested", 0),
        ("never asked", 1),
        ("passed over", 2),
    ];
    for (label, wanted) in counts {
        assert_eq!(count(&ran, label), wanted, "{label} in {}", ran.out);
    }
}

#[test]
fn the_report_explains_and_names() {
    let run = mixed();
    let gone = run.join("gone.svw");
    let ran = batch(&[run.as_os_str(), gone.as_os_str()]);
    for words in [
        "held as the record stands; what comes next may break it\n",
        "  fewer than 6 bytes\n",
        "  length disagrees with the count\n",
        "  of 5 judged: no strong and no weak was reached\n",
        "  of 5 judged: some |-> was never asked\n",
        "\nslowest ",
        "  records a second\n",
    ] {
        assert!(ran.out.contains(words), "{words} in {}", ran.out);
    }
    let shown = run.display();
    let names = format!(
        "\n\nbroken  {shown}/b/2.svw\nrefused 1  {shown}/torn.svw\n\
         refused 5  {shown}/torn2.svw\nunreadable  {shown}/gone.svw: there is no such file\n"
    );
    assert!(ran.out.ends_with(&names), "{}", ran.out);
    assert_eq!(ran.status, 4);
}

#[test]
fn the_first_twenty_broken_records_are_named() {
    let run = Folder::new();
    for number in 0..25 {
        run.file(
            format!("{number:02}.svw"),
            example_bytes("flush-broken.svw"),
        );
    }
    run.file("held.svw", example_bytes("flush.svw"));
    let ran = batch(&[run.as_os_str()]);
    let named: Vec<&str> = ran
        .out
        .lines()
        .filter(|line| line.starts_with("broken  "))
        .collect();
    let path = |number: usize| format!("broken  {}/{number:02}.svw", run.display());
    let mut wanted: Vec<String> = (0..20).map(path).collect();
    wanted.push("broken  and 5 more, which --list names".to_string());
    assert_eq!(named, wanted);
    assert_eq!(ran.status, 0);
}

/// Every record that misses what is required is named, however many, and a broken one that does not miss it.
#[test]
fn every_record_that_misses_what_is_required_is_named() {
    let run = Folder::new();
    for number in 0..25 {
        run.file(format!("{number:02}.svw"), example_bytes("flush-open.svw"));
    }
    run.file("broken.svw", example_bytes("flush-broken.svw"));
    run.file("held.svw", example_bytes("flush.svw"));
    run.file("unasked.svw", example_bytes("flush-unasked.svw"));
    let named = |words: &[&str]| -> (u8, Vec<String>) {
        let words = words.iter().map(OsStr::new).chain([run.as_os_str()]);
        let ran = batch(&words.collect::<Vec<_>>());
        let (_, named) = ran.out.rsplit_once("\n\n").unwrap();
        let shown = format!("{}/", run.display());
        let lines = named.lines().map(|line| line.replace(&shown, ""));
        (ran.status, lines.collect())
    };
    let missed = |number: usize| format!("missed  {number:02}.svw: level 1 tested yes");
    let mut wanted: Vec<String> = (0..25).map(missed).collect();
    wanted.push("missed  broken.svw: level 0 tested yes".to_string());
    assert_eq!(named(&["--require", "2"]), (1, wanted));
    let wanted = [
        "missed  unasked.svw: level 2 tested yes, a |-> never asked",
        "broken  broken.svw",
    ];
    assert_eq!(named(&["--asked"]), (1, wanted.map(String::from).to_vec()));
    assert_eq!(
        named(&["--require=0"]),
        (0, vec!["broken  broken.svw".to_string()])
    );
}

#[test]
fn level_3_is_counted_apart_from_level_2() {
    let [table, open, held] = ["p1.svt", "p1.svw", "p3.svw"].map(example);
    let ran = kit(["batch", &table, &open, &held, &held]);
    assert_eq!(ran.status, 0);
    assert_eq!((count(&ran, "held"), count(&ran, "total")), (2, 3));
    assert_eq!((count(&ran, "level 3"), count(&ran, "level 2")), (2, 0));
    assert_eq!(count(&ran, "open, level 1"), 1);
    assert!(!ran.out.contains("\nreached"));
}

#[test]
fn the_status_says_whether_the_goal_is_reached() {
    let [held, open] = ["flush.svw", "flush-open.svw"].map(example);
    let [broken, unasked] = ["flush-broken.svw", "flush-unasked.svw"].map(example);
    let try_goal = |goal: &[&str], records: &[&str], status: u8, reached: usize| {
        let more = [goal, records].concat();
        let ran = batch(&more);
        assert_eq!(ran.status, status, "{more:?}");
        assert_eq!(count(&ran, "reached"), reached, "{more:?}");
    };
    try_goal(&["--require", "0"], &[&broken, &open], 0, 2);
    try_goal(&["--require", "1"], &[&held, &open], 0, 2);
    try_goal(&["--require", "1"], &[&broken, &open], 1, 1);
    try_goal(&["--require=2"], &[&held, &open, &unasked], 1, 2);
    try_goal(&["--require", "3"], &[&held], 1, 0);
    try_goal(&["--tested"], &[&held, &broken], 0, 2);
    // without an acknowledge the weak(0) of always is reached all the same
    try_goal(&["--tested"], &[&held, &unasked], 0, 2);
    try_goal(&["--asked"], &[&held, &broken, &open], 0, 3);
    try_goal(&["--asked"], &[&held, &unasked], 1, 1);
    try_goal(
        &["--tested", "--asked", "--require=2"],
        &[&held, &unasked, &open],
        1,
        1,
    );
    // a refused record weighs more than a low level, and an unreadable one more than both
    let [table, none] = ["flush.svt", "none.svw"].map(example);
    try_goal(&["--require", "1"], &[&broken, &table], 3, 0);
    try_goal(&["--require", "1"], &[&table, &none], 4, 0);
}

#[test]
fn what_is_required_stands_in_the_report() {
    let record = example("flush.svw");
    let rows = |more: &[&str]| {
        let ran = batch(&[&[record.as_str()], more].concat());
        let row = ran.out.lines().find(|line| line.starts_with("reached"));
        row.unwrap_or_default()
            .split("  ")
            .last()
            .map(str::to_string)
    };
    for (more, words) in [
        (&["--require=2"][..], "of 1: level 2 or more"),
        (&["--tested"], "of 1: tested"),
        (&["--asked"], "of 1: every |-> asked"),
        (
            &["--tested", "--require=2"],
            "of 1: level 2 or more and tested",
        ),
        (
            &["--asked", "--tested", "--require=2"],
            "of 1: level 2 or more, tested and every |-> asked",
        ),
    ] {
        assert_eq!(rows(more).as_deref(), Some(words));
    }
}

/// @(clk) without a tick: neither strong is reached, and no |-> is.
#[test]
fn untested_records_are_counted() {
    let [table, ticks, stopped] = ["write.svt", "write.svw", "write-stopped.svw"].map(example);
    let ran = kit(["batch", &table, &ticks, &stopped, "--tested", "--list"]);
    assert_eq!((ran.status, count(&ran, "reached")), (1, 1));
    assert_eq!(
        (count(&ran, "not tested"), count(&ran, "never asked")),
        (1, 1)
    );
    let listed = format!("{stopped}: level 2 tested no, a |-> never asked\n");
    assert!(ran.out.contains(&listed), "{}", ran.out);
}

#[test]
fn what_is_asked_once_is_said() {
    let [table, open, held] = ["p1.svt", "p1.svw", "p3.svw"].map(example);
    let ran = kit(["batch", &table, &open, &held]);
    let note = "  in all\n\nAsked once: the whole assertion, at the first sample only. To ask at every sample, write\n\
                \x20 always strong(s0 ##1 s1)\nor say with --once that once is meant.\n";
    assert!(ran.out.ends_with(note), "{}", ran.out);
    assert_eq!(count(&ran, "never asked"), 0);
    let meant = kit(["batch", &table, &open, &held, "--once"]);
    assert!(meant.out.ends_with("  in all\n"), "{}", meant.out);
    assert_eq!((ran.status, meant.status), (0, 0));
    // the names of records come last
    let ran = kit(["batch", &table, &held, &example("flush.svt")]);
    assert!(
        ran.out
            .contains("--once that once is meant.\n\nrefused 2  "),
        "{}",
        ran.out
    );
}

#[test]
fn many_records_keep_their_order() {
    let kinds = [
        ("flush.svw", "level 2 tested yes"),
        ("flush-open.svw", "level 1 tested yes"),
        ("flush-broken.svw", "level 0 tested yes"),
        ("flush-unasked.svw", "level 2 tested yes, a |-> never asked"),
        ("flush.svt", "refused 2 at 0"),
        ("none.svw", "unreadable: there is no such file"),
    ];
    // a step of 5 through the 6 kinds, then of 7: any two neighbours differ
    let order: Vec<usize> = (0..1500).map(|k| (k * 5 + k / 100) % 6).collect();
    let names = order.iter().map(|k| example(kinds[*k].0));
    let more: Vec<String> = names.chain(["--list".to_string()]).collect();
    let ran = batch(&more);
    let wanted = order
        .iter()
        .map(|k| format!("{}: {}", kinds[*k].0, kinds[*k].1));
    assert_eq!(listed(&ran, &examples()), wanted.collect::<Vec<_>>());
    assert_eq!(count(&ran, "total"), 1500);
    let of_kind = |kind: usize| order.iter().filter(|k| **k == kind).count();
    assert_eq!(count(&ran, "broken, level 0"), of_kind(2));
    assert_eq!(count(&ran, "held"), of_kind(0) + of_kind(3));
    assert_eq!(ran.out.matches("\nrefused 2  ").count(), of_kind(4));
    assert_eq!(ran.out.matches("\nunreadable  ").count(), of_kind(5) + 1);
}

#[test]
fn links_and_strange_files_are_neither_followed_into_loops_nor_waited_for() {
    let run = Folder::new();
    run.file("sub/1.svw", example_bytes("flush.svw"));
    run.file("2.svw/3.svw", example_bytes("flush.svw"));
    symlink("..", run.join("sub/up")).unwrap();
    symlink("../sub", run.join("sub/again.svw")).unwrap();
    symlink("sub/1.svw", run.join("linked.svw")).unwrap();
    symlink("nowhere", run.join("lost.svw")).unwrap();
    symlink("/dev/zero", run.join("endless.svw")).unwrap();
    // a pipe that nobody writes to: opening it would not come back
    let made = Command::new("mkfifo").arg(run.join("pipe.svw")).status();
    assert!(made.unwrap().success());
    let ran = batch(&[OsStr::new("--list"), run.as_os_str()]);
    let lines = [
        "2.svw/3.svw: level 2 tested yes",
        "endless.svw: unreadable: this is not an ordinary file",
        "linked.svw: level 2 tested yes",
        "lost.svw: unreadable: there is no such file",
        "pipe.svw: unreadable: this is not an ordinary file",
        "sub/1.svw: level 2 tested yes",
    ];
    assert_eq!(listed(&ran, &run), lines);
    assert_eq!((ran.status, count(&ran, "passed over")), (4, 2));
    // a folder that is given through a link is entered, and a device that is given is read
    symlink("sub", run.join("given")).unwrap();
    let ran = batch(&[&run.join("given")]);
    assert_eq!((ran.status, count(&ran, "total")), (0, 1));
    assert_eq!(batch(&["/dev/zero"]).status, 3);
}

#[test]
fn deep_folders_are_searched_to_the_end() {
    let run = Folder::new();
    // a name for each level, so that the path stays below the 4096 bytes that can be opened
    let deep: PathBuf = std::iter::repeat_n("d", 1500).collect();
    run.file(deep.join("1.svw"), example_bytes("flush.svw"));
    let ran = batch(&[&run]);
    assert_eq!((ran.status, count(&ran, "held")), (0, 1));
}

#[test]
fn names_are_printed_on_one_line_whatever_they_contain() {
    let run = Folder::new();
    let torn = [
        OsStr::new("a\nb.svw"),
        OsStr::new("c\u{1b}[31m.svw"),
        OsStr::new("d\u{202e}e.svw"),
        OsStr::new("é µ.svw"),
        OsStr::from_bytes(b"\xff.svw"),
    ];
    for name in torn {
        run.file(name, "SV");
    }
    let ran = batch(&[&run]);
    let names = ran
        .out
        .lines()
        .filter_map(|line| line.strip_prefix("refused 1  "));
    let names: Vec<&str> = names
        .map(|name| name.rsplit('/').next().unwrap_or_default())
        .collect();
    let wanted = [
        "a\\nb.svw",
        "c\\u{1b}[31m.svw",
        "d\\u{202e}e.svw",
        "é µ.svw",
        "\u{fffd}.svw",
    ];
    assert_eq!(names, wanted);
}

#[test]
fn a_refused_table_judges_nothing() {
    let run = Folder::new();
    let record = example("flush.svw");
    // strong(a[*0]): refused with 9 at node 3
    let nodes = [[1, 0, 0], [16, 0, 0], [20, 1, 0], [32, 2, 0]];
    let bad = run.file("bad.svt", table(&nodes));
    let ran = kit(["batch", &bad, &record]);
    assert_eq!((ran.status, ran.out.as_str()), (3, ""));
    let reason = "strong, weak or |-> over a sequence that matches no k letters ⊤, k at least 1";
    let hollow = "its sequence matches no stretch of one or more samples, whatever they are";
    let message =
        format!("kit batch: {bad}: refused 9 at 3: {reason}\nstrong(s0[*0]): {hollow}.\n");
    assert_eq!(ran.err, message);
    // a[*1:$]: the judge takes a property, so 12
    let bad = run.file("bad.svt", table(&[[1, 0, 0], [16, 0, 0], [21, 1, 0]]));
    let ran = kit(["batch", &bad, &record]);
    assert_eq!((ran.status, ran.out.as_str()), (3, ""));
    assert!(ran.err.contains("refused 12 at 0: "), "{}", ran.err);
}

#[test]
fn no_record_is_said() {
    let run = Folder::new();
    run.file("notes.txt", "");
    let ran = batch(&[&run]);
    assert_eq!((ran.status, ran.out.as_str()), (4, ""));
    let message = "no file below ends in .svw; files passed over: 1\n";
    assert_eq!(ran.err, format!("kit batch: {}: {message}", run.display()));
    let ran = batch::<&str>(&[]);
    assert_eq!((ran.status, ran.out.as_str()), (2, ""));
    assert!(ran.err.starts_with("kit batch: a TABLE, and "));
}

#[test]
fn a_wrong_level_is_a_usage_error() {
    for level in ["4", "-1", "", "two", "02", "1.0"] {
        let ran = batch(&["flush.svw", &format!("--require={level}")]);
        assert_eq!((ran.status, ran.out.as_str()), (2, ""), "{level}");
        assert!(ran.err.contains("0 to 3"), "{}", ran.err);
    }
}

#[test]
fn an_output_that_fails_ends_it() {
    let record = example("flush.svw");
    let more = ["--list", &record, &record].map(OsStr::new);
    for takes in [0, 1, 100, 300, 500] {
        let mut out = Failing {
            takes,
            with: ErrorKind::BrokenPipe,
        };
        let quietly = (4, String::new());
        assert_eq!(kit_to(words(&more), &mut out, false), quietly);
        let mut out = Failing {
            takes,
            with: ErrorKind::StorageFull,
        };
        let (status, err) = kit_to(words(&more), &mut out, false);
        assert_eq!(status, 4);
        assert!(err.starts_with("kit batch: the answer cannot be written"));
    }
}

#[test]
fn a_bar_is_drawn_for_a_person_only() {
    let words = words(&[OsStr::new(&example("flush.svw"))]);
    let mut out = Vec::new();
    let (status, err) = kit_to(&words, &mut out, true);
    assert_eq!(status, 0);
    assert!(err.contains("] 0/1 0%"), "{err}");
    assert!(err.ends_with(&format!("\r{:79}\r", "")), "{err:?}");
    assert!(!err.contains('\n') && !out.contains(&b'\r'));
    let (status, err) = kit_to(&words, &mut out, false);
    assert_eq!((status, err.as_str()), (0, ""));
}

#[test]
fn a_folder_without_records_is_told_beside_others() {
    let (empty, full) = (Folder::new(), Folder::new());
    full.file("a.svw", example_bytes("flush.svw"));
    let ran = batch(&[empty.as_os_str(), full.as_os_str()]);
    assert_eq!((ran.status, count(&ran, "total")), (4, 1));
    let told = format!(
        "kit batch: {}: no file below ends in .svw; files passed over: 0\n",
        empty.display()
    );
    assert_eq!(ran.err, told);
}
