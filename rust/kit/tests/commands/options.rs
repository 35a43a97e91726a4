//! Command lines that are wrong, and the help.
use crate::support::waves::record;
use crate::support::{example, kit, kit_to, Failing, Folder, Ran, COMMANDS};
use std::ffi::OsStr;
use std::os::unix::ffi::OsStrExt;

/// Asks for status 2, no answer, a message that begins so, and where the help is.
fn wrong<T: AsRef<OsStr>>(words: impl IntoIterator<Item = T>, begins: &str) -> Ran {
    let ran = kit(words);
    assert_eq!((ran.status, ran.out.as_str()), (2, ""), "{}", ran.err);
    assert!(ran.err.starts_with(begins), "{} for {begins}", ran.err);
    let name = begins.split(':').next().unwrap_or_default();
    let help = format!("\n{name} --help says how it is used\n");
    assert!(ran.err.ends_with(&help), "{}", ran.err);
    ran
}

#[test]
fn an_unknown_command_gets_a_hint() {
    wrong(
        ["juge", "a", "b"],
        "kit: juge is not a command: did you mean judge?\n",
    );
    wrong(
        ["Table"],
        "kit: Table is not a command: did you mean table?\n",
    );
    wrong(["xyzzy"], "kit: xyzzy is not a command\n");
    wrong([""], "kit:  is not a command");
    wrong(["version"], "kit: version is not a command");
    wrong(
        ["help", "bach"],
        "kit: bach is not a command: did you mean batch?\n",
    );
    wrong(["-o"], "kit: -o is not a command");
    wrong(
        [OsStr::from_bytes(b"\xff\xfe")],
        "kit: \u{fffd}\u{fffd} is not a command\n",
    );
}

#[test]
fn an_unknown_option_is_named() {
    for command in COMMANDS {
        for option in ["--frobnicate", "--frobnicate=3", "-Q", "---", "-é"] {
            let name = option.split('=').next().unwrap();
            let begins = format!("kit {command}: {name} is not an option of this command");
            wrong([command, option], &begins);
            wrong([command, "a.svt", option, "b.svw"], &begins);
        }
    }
    let mean = |option: &str| format!("kit batch: {option} is not an option of this command: ");
    let hint = |option: &str, near: &str| mean(option) + "did you mean " + near + "?\n";
    wrong(
        ["batch", "--requires", "2"],
        &hint("--requires", "--require"),
    );
    wrong(["batch", "--lst"], &hint("--lst", "--list"));
}

/// Options of the commands, and whether a value follows.
const OPTIONS: [(&str, &[&str], bool); 11] = [
    ("table", &["-o"], true),
    ("table", &["--once"], false),
    ("show", &["--names"], true),
    ("show", &["--nodes"], false),
    ("record", &["--settled", "--times"], false),
    (
        "record",
        &[
            "-o",
            "--signals",
            "--on",
            "--every",
            "--from",
            "--count",
            "--x",
        ],
        true,
    ),
    ("judge", &["--require", "--names"], true),
    ("judge", &["--json", "--tested", "--asked", "--once"], false),
    ("picture", &["-o", "--names"], true),
    ("batch", &["--require"], true),
    ("batch", &["--tested", "--asked", "--once", "--list"], false),
];

#[test]
fn an_option_is_given_once_and_with_its_value() {
    for (command, options, takes) in OPTIONS {
        for option in options {
            match takes {
                true => value_once(command, option),
                false => flag_once(command, option),
            }
        }
    }
}

fn value_once(command: &str, option: &str) {
    let begins = |words: &str| format!("kit {command}: {option} {words}\n");
    let value = format!("{option}=1");
    wrong([command, option], &begins("needs a value after it"));
    wrong([command, "a", option], &begins("needs a value after it"));
    wrong(
        [command, option, "1", option, "1"],
        &begins("is given twice"),
    );
    wrong([command, option, "1", &value], &begins("is given twice"));
    wrong([command, &value, option], &begins("is given twice"));
}

fn flag_once(command: &str, option: &str) {
    let begins = |words: &str| format!("kit {command}: {option} {words}\n");
    wrong([command, &format!("{option}=1")], &begins("takes no value"));
    wrong([command, option, "a", option], &begins("is given twice"));
}

#[test]
fn a_value_after_a_word_or_an_equals_sign_is_the_same() {
    let [table, record] = ["flush.svt", "flush-open.svw"].map(example);
    let status = |more: &[&str]| kit([&["batch", &table, &record], more].concat()).status;
    // the record reaches level 1
    assert_eq!(
        [status(&["--require", "1"]), status(&["--require=1"])],
        [0, 0]
    );
    assert_eq!(
        [status(&["--require", "2"]), status(&["--require=2"])],
        [1, 1]
    );
    assert_eq!(status(&["--require=1=1"]), 2);
    // after -- a word is a file, and this one is not there
    assert_eq!(status(&["--", "--require=1"]), 4);
}

#[test]
fn files_are_needed() {
    for command in COMMANDS {
        let ran = wrong([command], &format!("kit {command}: "));
        assert!(
            ran.err.contains("given") || ran.err.contains("must"),
            "{}",
            ran.err
        );
        wrong([command, "--"], &format!("kit {command}: "));
    }
}

#[test]
fn too_many_files_are_named() {
    let only = |command: &str, what: &str| format!("kit {command}: only {what} can be given, ");
    let quotes = "; a value with a blank in it is put in quotes\n";
    let begins = only("record", "one WAVEFORM") + "and here stand good.vcd and clk" + quotes;
    wrong(["record", "good.vcd", "--on", "posedge", "clk"], &begins);
    let begins = only("record", "one WAVEFORM") + "and here stand ns and good.vcd" + quotes;
    wrong(["record", "--every", "10", "ns", "good.vcd"], &begins);
    // no option's value stands before a file
    let begins = only("judge", "TABLE and RECORD") + "and here stand a, b\\n and c\n";
    wrong(
        ["judge", "a", "--json", "b\n", "c", "--names", "n"],
        &begins,
    );
    let many = only("show", "one TABLE or RECORD") + "and here stand a, b, c, d and 2 more\n";
    wrong(["show", "a", "b", "c", "d", "e", "f"], &many);
    let (long, cut) = ("x".repeat(1000), "x".repeat(40));
    let begins = only("signals", "one WAVEFORM") + &format!("and here stand {cut}.. and b\n");
    wrong(["signals", &long, "b"], &begins);
}

#[test]
fn a_command_without_an_output_says_where_it_writes() {
    for command in ["show", "signals", "judge", "batch"] {
        let words = "it writes to standard output, and > FILE puts that in a file\n";
        let begins = format!("kit {command}: -o is not an option of this command: {words}");
        wrong([command, "a", "-o", "b"], &begins);
    }
}

#[test]
fn a_file_may_begin_with_a_dash_after_two() {
    let missing = kit(["batch", "--", "--help", "-"]);
    assert_eq!((missing.status, missing.out.as_str()), (4, ""));
    assert_eq!(missing.err, "kit batch: --help: there is no such file\n");
    let ran = kit(["batch", &example("flush.svt"), "--", "-x.svw"]);
    assert_eq!(ran.status, 4);
    let named = "\nunreadable  -x.svw: there is no such file\n";
    assert!(ran.out.ends_with(named), "{}", ran.out);
}

#[test]
fn words_need_not_be_utf_8() {
    let bad = OsStr::from_bytes(b"\xff");
    // as a file
    let ran = kit([OsStr::new("batch"), bad, bad]);
    assert_eq!(ran.err, "kit batch: \u{fffd}: there is no such file\n");
    assert_eq!(ran.status, 4);
    // as a value that must be text, and as a command to be helped with
    let words = ["batch", "--require"].map(OsStr::new);
    let ran = wrong(words.into_iter().chain([bad]), "kit batch: ");
    assert!(
        ran.err.contains("--require is not readable text"),
        "{}",
        ran.err
    );
    wrong([OsStr::new("help"), bad], "kit: \u{fffd} is not a command");
    for command in COMMANDS {
        let ran = kit([OsStr::new(command), bad]);
        assert!([2, 4].contains(&ran.status), "{command}");
        assert!(
            ran.err.starts_with(&format!("kit {command}: ")),
            "{}",
            ran.err
        );
    }
}

#[test]
fn help_is_the_same_however_it_is_asked_for() {
    for command in COMMANDS {
        let help = kit(["help", command]);
        assert_eq!((help.status, help.err.as_str()), (0, ""));
        for words in [
            vec![command, "--help"],
            vec![command, "-h"],
            vec![command, "--frobnicate", "-h"],
            vec![command, "a", "--help", "b"],
        ] {
            assert_eq!(kit(&words), help, "{words:?}");
        }
        assert_ne!(kit([command, "--", "--help"]), help);
    }
    let all = kit(["--help"]);
    assert_eq!((all.status, all.err.as_str()), (0, ""));
    assert_eq!(kit(["-h"]), all);
    assert_eq!(kit(["help"]), all);
    assert_eq!(kit::<&str>([]), all);
}

#[test]
fn the_version_is_that_of_the_package() {
    let expected = concat!("kit ", env!("CARGO_PKG_VERSION"), "\n");
    for word in ["--version", "-V"] {
        let ran = kit([word]);
        assert_eq!(
            (ran.status, ran.out.as_str(), ran.err.as_str()),
            (0, expected, "")
        );
    }
}

#[test]
fn help_reads_well() {
    let all = kit(["--help"]).out;
    reads_well(&all);
    for command in COMMANDS {
        assert!(all.contains(&format!("  kit {command} ")), "{command}");
        let help = kit(["help", command]).out;
        reads_well(&help);
        assert!(help.starts_with(&format!("kit {command} ")), "{help}");
        let (_, example) = help.split_once("\n\nExample").expect("there is an example");
        let (_, end) = example.split_once("\n\nThe status is ").unwrap();
        assert!(!end.contains("\n\n"), "the statuses come last: {help}");
    }
    for status in 0..=4 {
        let said = |text: &str| text.contains(&format!(" {status} "));
        assert!(said(&all), "status {status}");
    }
    for command in ["judge", "batch"] {
        let help = kit(["help", command]).out.replace('\n', " ");
        let (_, statuses) = help.split_once("status").expect("the statuses are listed");
        for status in ["0", "1", "2", "3", "4"] {
            assert!(statuses.contains(status), "{command}: no status {status}");
        }
    }
}

/// Asks that the help shows this answer under an example, where `file` stands for a name in it.
fn shows(command: &str, answer: &str, file: &str) {
    let help = kit(["help", command]).out;
    let answer = answer.replace(file, "FILE");
    for line in answer.lines() {
        let (before, after) = line.split_once("FILE").unwrap_or((line, ""));
        let shown = |known: &str| {
            let known = known.strip_prefix("  ");
            known.is_some_and(|known| known.starts_with(before) && known.ends_with(after))
        };
        assert!(help.lines().any(shown), "no {line} in {help}");
    }
}

#[test]
fn the_answers_in_the_help_are_true() {
    let waveform = example("waves/logic-sigrok.vcd");
    shows("signals", &kit(["signals", &waveform]).out, &waveform);
    let (folder, waveform) = (Folder::new(), example("waves/drive-iverilog.vcd"));
    let words = ["--on", "posedge bench.clk", "--from", "12ns", "--signals"];
    let words = [
        &words[..],
        &["ack=bench.ack,drop=bench.drop,strobe=bench.strobe"],
    ]
    .concat();
    let answer = record(&folder, &waveform, &words).out;
    shows("record", &answer, &folder.path("out.svw"));
    let (table, open) = (example("flush.svt"), example("flush-open.svw"));
    let picture = folder.path("flush.svg");
    let answer = kit(["picture", &table, &open, "-o", &picture]).out;
    shows("picture", &answer, &picture);
    let text = folder.file("flush.txt", "signals ack drop strobe");
    let text = folder.file("flush.txt", kit(["show", &table, "--names", &text]).out);
    shows("show", &kit(["show", &table, "--names", &text]).out, &table);
    shows("show", &kit(["show", &open, "--names", &text]).out, &open);
    let table = folder.path("flush.svt");
    shows("table", &kit(["table", &text, "-o", &table]).out, &table);
}

/// Asks for lines of at most 100 columns without blanks at their ends, the last one ended.
fn reads_well(text: &str) {
    assert!(text.ends_with('\n') && !text.ends_with("\n\n"), "{text}");
    for line in text.lines() {
        assert!(line.chars().count() <= 100, "too long: {line}");
        assert_eq!(line, line.trim_end());
        assert!(!line.contains('\t'));
    }
}

#[test]
fn help_that_cannot_be_written_is_a_failure() {
    for words in [vec!["--help"], vec!["help", "batch"], vec!["judge", "-h"]] {
        let with = std::io::ErrorKind::StorageFull;
        let (status, err) = kit_to(&words, &mut Failing { takes: 5, with }, false);
        assert_eq!(status, 4);
        assert!(
            err.starts_with("kit") && err.contains("cannot be written"),
            "{err}"
        );
    }
}
