//! `kit table`: what it writes and says, and what it does not take.
use crate::support::{kit, table_2, table_3, Folder, Ran};
use std::fs;

const FLUSH: &str = "\
// a flush that is acknowledged is durable
signals ack=0 drop=1 strobe=2
always (ack |-> strong((!drop)[*1:$] ##0 strobe))
";

#[test]
fn a_text_becomes_a_table() {
    let folder = Folder::new();
    let (text, output) = (folder.file("flush.txt", FLUSH), folder.path("flush.svt"));
    let Ran { status, out, err } = kit(["table", &text, "-o", &output]);
    assert_eq!((status, err.as_str()), (0, ""));
    let read = FLUSH.lines().last().unwrap();
    let summary = "version 3, 12 nodes, 15 written out, 3 signals, a property";
    assert_eq!(out, format!("{output}: {summary}\nread as: {read}\n"));
    // the nodes of examples/flush.txt, with the booleans in the order of the text
    let nodes = [
        [1, 0, 0],
        [1, 1, 0],
        [2, 1, 0],
        [1, 2, 0],
        [16, 0, 0],
        [16, 2, 0],
        [21, 5, 0],
        [16, 3, 0],
        [18, 6, 7],
        [32, 8, 0],
        [37, 4, 9],
        [44, 10, 0],
    ];
    assert_eq!(fs::read(&output).unwrap(), table_3(&nodes));
}

/// A table that older benches cannot read is told apart.
#[test]
fn a_rise_makes_a_table_of_version_2() {
    let folder = Folder::new();
    let text = folder.file(
        "rise.txt",
        "signals ack=0 drop=1\nrose(ack) |-> strong(!fell(drop) & drop)\n",
    );
    let output = folder.path("rise.svt");
    let Ran { status, out, err } = kit(["table", &text, "-o", &output, "--once"]);
    assert_eq!((status, err.as_str()), (0, ""));
    let summary = "version 2, 9 nodes, 2 signals, a property";
    let read = "rose(ack) |-> strong(!fell(drop) & drop)";
    assert_eq!(out, format!("{output}: {summary}\nread as: {read}\n"));
    let nodes = [
        [5, 0, 0],
        [6, 1, 0],
        [2, 1, 0],
        [1, 1, 0],
        [3, 2, 3],
        [16, 0, 0],
        [16, 4, 0],
        [32, 6, 0],
        [37, 5, 7],
    ];
    assert_eq!(fs::read(&output).unwrap(), table_2(&nodes));
}

#[test]
fn how_a_text_was_read_is_said() {
    let folder = Folder::new();
    let table = folder.path("two.svt");
    let read = |assertion: &str| {
        let text = folder.file("two.txt", format!("signals a b\n{assertion}"));
        let said = kit(["table", &text, "-o", &table]).out;
        said.lines().nth(1).unwrap_or_default().to_string()
    };
    // `and` binds tighter than `until`, and `until` is read from right to left
    assert_eq!(
        read("weak(a) until strong(0) and weak(b) until strong(0)"),
        "read as: weak(a) until ((strong(0) and weak(b)) until strong(0))"
    );
    assert_eq!(
        read("(weak(a) until strong(0)) and (weak(b) until strong(0))"),
        "read as: (weak(a) until strong(0)) and (weak(b) until strong(0))"
    );
}

#[test]
fn what_is_asked_once_is_said() {
    let folder = Folder::new();
    let text = folder.file("once.txt", "signals a b c\n@(c) (a |-> strong(b))\n");
    let table = folder.path("once.svt");
    let said = kit(["table", &text, "-o", &table]);
    assert_eq!((said.status, said.err.as_str()), (0, ""));
    let read =
        format!("{table}: 8 nodes, 3 signals, a property\nread as: @(c) (a |-> strong(b))\n");
    let note =
        "Asked once: the whole assertion, at the first sample only. To ask at every tick, write\n\
                \x20 @(c) always (a |-> strong(b))\nor say with --once that once is meant.\n";
    assert_eq!(said.out, format!("{read}{note}"));
    let written = fs::read(&table).unwrap();
    let meant = kit(["table", &text, "-o", &table, "--once"]);
    assert_eq!((meant.status, meant.out), (0, read));
    // the table is the same either way
    assert_eq!(fs::read(&table).unwrap(), written);
}

#[test]
fn a_sequence_is_written_and_named() {
    let folder = Folder::new();
    let (text, table) = (folder.file("r.txt", "signals a\na"), folder.path("r.svt"));
    let Ran { status, out, err } = kit(["table", &text, "-o", &table]);
    assert_eq!((status, err.as_str()), (0, ""));
    let words = "a sequence: it is for match ends, and the judge refuses it with 12";
    assert_eq!(
        out,
        format!("{table}: 2 nodes, 1 signal, {words}\nread as: a\n")
    );
    assert_eq!(fs::read(&table).unwrap().len(), 14);
}

#[test]
fn a_mistake_is_shown_and_nothing_is_written() {
    let folder = Folder::new();
    let text = folder.file("bad.txt", "signals a b\n\n  strong(a ##1 b\n");
    let table = folder.path("bad.svt");
    let Ran { status, out, err } = kit(["table", &text, "-o", &table]);
    assert_eq!((status, out.as_str()), (4, ""));
    let words = "a closing parenthesis was expected, to match line 3, column 9";
    let shown = "    strong(a ##1 b\n                  ^\n";
    assert_eq!(err, format!("kit table: {text}:3:17: {words}\n{shown}"));
    assert!(fs::metadata(&table).is_err());
}

#[test]
fn a_refused_table_is_not_written() {
    let folder = Folder::new();
    let text = folder.file("hollow.txt", "signals a\nweak(a) and strong(a[*0])");
    let table = folder.path("hollow.svt");
    let Ran { status, out, err } = kit(["table", &text, "-o", &table]);
    assert_eq!((status, out.as_str()), (3, ""));
    // a, letter, weak, letter, [*0], strong: the strong is node 5
    let reason = "strong, weak or |-> over a sequence that matches no k letters ⊤, k at least 1";
    let words = "its sequence matches no stretch of one or more samples, whatever they are";
    let wanted = format!("{text}: refused 9 at 5: {reason}\n  strong(a[*0])\n{words}\n");
    assert_eq!(err, format!("kit table: {wanted}"));
    assert!(fs::metadata(&table).is_err());
}

#[test]
fn a_table_that_is_too_large_rewritten_is_written_with_a_warning() {
    let folder = Folder::new();
    // 14 letters under a clock are 126 nodes
    let letters = vec!["a"; 14].join(" ##1 ");
    let text = folder.file("large.txt", format!("signals a c\n@(c) strong({letters})"));
    let table = folder.path("large.svt");
    let Ran { status, out, err } = kit(["table", &text, "-o", &table, "--once"]);
    // a, c, 14 letters, 13 ##1, strong, clock
    let read = format!("@(c) strong({letters})");
    let said = format!("{table}: 31 nodes, 2 signals, a property\nread as: {read}\n");
    assert_eq!((status, out), (0, said));
    assert!(
        err.starts_with(&format!(
            "kit table: warning: {table}: the fast engine and the program refuse it with 13"
        )),
        "{err}"
    );
    assert!(fs::metadata(&table).is_ok());
}

#[test]
fn a_wrong_command_line_has_status_2() {
    let folder = Folder::new();
    let text = folder.file("a.txt", "strong(1)");
    let table = folder.path("a.svt");
    for words in [
        &["table"][..],
        &["table", &text],
        &["table", &text, &text, "-o", &table],
        &["table", &text, "-o"],
        &["table", &text, "-o", &text],
        &["table", &text, "-o", &folder.path("b.txt")],
        &["table", &text, "-o", &table, "--nodes"],
    ] {
        let Ran { status, out, err } = kit(words);
        assert_eq!((status, out.as_str()), (2, ""), "{words:?}");
        assert!(err.contains("kit table --help"), "{err}");
    }
    // a text of any name is never written over
    let same = folder.file("same.svt", "strong(1)");
    assert_eq!(kit(["table", &same, "-o", &same]).status, 2);
    assert_eq!(fs::read(&same).unwrap(), b"strong(1)");
}

#[test]
fn files_that_are_no_texts_have_status_4() {
    let folder = Folder::new();
    let table = folder.path("x.svt");
    let files = [
        (folder.path("none.txt"), "there is no such file"),
        (folder.path(""), "folder"),
        (folder.file("empty.txt", ""), "an assertion was expected"),
        (
            folder.file("comment.txt", "// a\n"),
            "an assertion was expected",
        ),
        (
            folder.file("bytes.txt", b"strong(\xff)"),
            "byte 7 is no UTF-8",
        ),
        (folder.file("zeros.txt", [0; 100]), "the character U+0000"),
        (
            folder.file("huge.txt", vec![b'('; (1 << 20) + 1]),
            "over a mebibyte",
        ),
        (
            folder.file("deep.txt", vec![b'('; 1 << 20]),
            "more than 400 parts",
        ),
        (
            folder.file("t.txt", b"SVT\x01\x00\x01\x00\x00\x00\x00"),
            "kit show",
        ),
        (
            folder.file("t2.txt", b"SVT\x02\x00\x01\x00\x00\x00\x00"),
            "kit show",
        ),
        (
            folder.file("t3.txt", b"SVT\x03\x00\x01\x00\x00\x00\x00"),
            "kit show",
        ),
    ];
    for (file, words) in files {
        let Ran { status, out, err } = kit(["table", &file, "-o", &table]);
        assert_eq!((status, out.as_str()), (4, ""), "{file}");
        assert!(err.contains(words), "{err}");
        assert!(fs::metadata(&table).is_err());
    }
    let text = folder.file("a.txt", "strong(1)");
    let Ran { status, err, .. } = kit(["table", &text, "-o", &folder.path("no/such/a.svt")]);
    assert_eq!(status, 4);
    assert!(err.contains("cannot be written"), "{err}");
}

#[test]
fn the_help_says_how_it_is_used_and_its_example_is_true() {
    let Ran { status, out, .. } = kit(["table", "--help"]);
    assert_eq!(status, 0);
    assert!(out.starts_with("kit table FILE.txt -o FILE.svt [--once] [--force]\n"));
    assert!(out.lines().all(|line| line.chars().count() <= 100), "{out}");
    let assertion = FLUSH.lines().last().unwrap();
    assert!(out.contains(&format!("\n  read as: {assertion}\n")));
}
