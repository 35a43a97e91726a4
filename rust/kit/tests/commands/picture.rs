//! `kit picture` as a command: what it writes, what it says, and how it ends.
use crate::support::{example, example_bytes, kit, record, table, Folder, Ran};
use std::fs;
use std::path::Path;

/// Runs it on two files with an output.
fn pictured(table: &str, record: &str, output: &str) -> Ran {
    kit(["picture", table, record, "-o", output])
}

#[test]
fn a_picture_is_written_and_its_level_is_said() {
    let folder = Folder::new();
    let output = folder.path("flush.svg");
    let ran = pictured(&example("flush.svt"), &example("flush-open.svw"), &output);
    let line = format!("{output}: level 1 tested yes, 3 samples\n");
    assert_eq!((ran.status, ran.out, ran.err.as_str()), (0, line, ""));
    let svg = fs::read_to_string(&output).unwrap();
    assert!(svg.starts_with("<svg xmlns=\"http://www.w3.org/2000/svg\" "));
    let second = svg.lines().nth(1).unwrap_or_default();
    assert!(second.starts_with("<!-- written by kit picture, "));
    assert!(svg.ends_with("</svg>\n"));
    let ran = pictured(&example("p1.svt"), &example("p1.svw"), &output);
    assert_eq!(ran.status, 0);
    assert!(ran.out.ends_with(": level 1 tested yes, 1 sample\n"));
}

#[test]
fn the_comment_of_the_text_that_is_judged_is_the_title() {
    let folder = Folder::new();
    let output = folder.path("x.svg");
    let text = "// One,\r\n//\r\n// and two.\r\nsignals a b // three\r\nstrong(a ##1 b)\r\n";
    let text = folder.file("text.txt", text);
    let record = example("p1.svw");
    let written = |args: &[&str]| {
        let ran = kit([&["picture", "-o", &output], args].concat());
        assert_eq!((ran.status, ran.err.as_str()), (0, ""));
        fs::read_to_string(&output).unwrap()
    };
    let svg = written(&[&text, &record]);
    assert!(svg.contains(">One, and two.</text>"), "{svg}");
    assert!(
        svg.contains("still waiting. One, and two.</title>"),
        "{svg}"
    );
    assert!(!svg.contains("three"), "{svg}");
    // a text that only names the signals is not what is judged
    let svg = written(&[&example("p1.svt"), &record, "--names", &text]);
    assert!(!svg.contains("One"), "{svg}");
}

#[test]
fn a_refused_file_gives_the_number_and_the_words_and_no_picture() {
    let folder = Folder::new();
    let output = folder.path("x.svg");
    // strong(a[*0])
    let nodes = [[1, 0, 0], [16, 0, 0], [20, 1, 0], [32, 2, 0]];
    let empty = folder.file("empty.svt", table(&nodes));
    let refused = |table: &str, record: &str| {
        let ran = pictured(table, record, &output);
        assert_eq!((ran.status, ran.out.as_str()), (3, ""));
        ran.err
    };
    let err = refused(&empty, &example("p1.svw"));
    assert!(
        err.contains("refused 9 at 3: strong, weak or |-> over a sequence"),
        "{err}"
    );
    assert!(err.contains("empty.svt: refused"), "{err}");
    let long = folder.file("long.svw", record(&[0; 64]));
    let err = refused(&example("p1.svt"), &long);
    assert!(
        err.contains("long.svw: refused 10 at 0: more than 63 samples"),
        "{err}"
    );
    // the table's refusal comes before the record's
    let err = refused(&empty, &long);
    assert!(err.contains("refused 9 at 3"), "{err}");
    assert!(!Path::new(&output).exists());
}

#[test]
fn a_wrong_command_line_and_a_missing_file_have_their_own_statuses() {
    let folder = Folder::new();
    let (table, record) = (example("p1.svt"), folder.file("p1.svw", record(&[])));
    let output = folder.path("x.svg");
    assert_eq!(kit(["picture", &table, &record]).status, 2);
    assert_eq!(kit(["picture", &table]).status, 2);
    assert_eq!(kit(["picture", &table, &record, "-o"]).status, 2);
    assert_eq!(kit(["picture", &table, &record, "--wide"]).status, 2);
    // an input is never written over
    assert_eq!(pictured(&table, &record, &record).status, 2);
    assert_eq!(fs::read(&record).unwrap(), b"SVW\x01\x00\x00");
    assert_eq!(
        pictured(&folder.path("none.svt"), &record, &output).status,
        4
    );
    assert_eq!(
        pictured(&table, &folder.path("none.svw"), &output).status,
        4
    );
    assert_eq!(
        pictured(&table, &record, &folder.path("none/x.svg")).status,
        4
    );
    assert!(!Path::new(&output).exists());
}

#[test]
fn torn_and_damaged_files_are_refused_or_drawn() {
    let folder = Folder::new();
    let output = folder.path("x.svg");
    let table = example_bytes("flush.svt");
    let record = example_bytes("flush.svw");
    for cut in 0..table.len() {
        let torn = folder.file("torn.svt", &table[..cut]);
        assert_eq!(
            pictured(&torn, &example("flush.svw"), &output).status,
            3,
            "{cut} bytes"
        );
    }
    for cut in 0..record.len() {
        let torn = folder.file("torn.svw", &record[..cut]);
        assert_eq!(
            pictured(&example("flush.svt"), &torn, &output).status,
            3,
            "{cut} bytes"
        );
    }
    assert!(!Path::new(&output).exists());
    for place in 0..table.len() {
        for byte in [0, 1, 16, 40, 255] {
            let mut damaged = table.clone();
            damaged[place] = byte;
            let damaged = folder.file("damaged.svt", &damaged);
            let ran = pictured(&damaged, &example("flush.svw"), &output);
            assert!(ran.status == 0 || ran.status == 3);
        }
    }
    let huge = folder.file("huge.svt", vec![b'S'; 1 << 20]);
    assert_eq!(pictured(&huge, &huge, &output).status, 3);
}

#[test]
fn the_help_says_how_it_is_used() {
    let out = kit(["picture", "--help"]).out;
    for word in ["TABLE", "RECORD", "--names", "-o FILE.svg", "Example"] {
        assert!(out.contains(word), "{word}");
    }
    assert!(out.lines().all(|line| line.chars().count() <= 100));
}
