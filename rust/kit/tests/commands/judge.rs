//! `kit judge` from its command line: the first line, the statuses, and files of every kind.
use crate::support::{example, kit, record, rising, table, table_2, Folder, Ran};
use second::{random_case, Case};

fn judge(table: &str, record: &str, more: &[&str]) -> Ran {
    kit([&["judge", table, record], more].concat())
}

/// Judges a record by a table, both written to files.
fn judge_in(folder: &Folder, table: &[u8], record: &[u8], more: &[&str]) -> Ran {
    folder.file("t.svt", table);
    folder.file("r.svw", record);
    judge_again(folder, more)
}

/// Judges the files that were written last.
fn judge_again(folder: &Folder, more: &[&str]) -> Ran {
    judge(&folder.path("t.svt"), &folder.path("r.svw"), more)
}

/// The flush of the examples with one of its records.
fn flush(record: &str, more: &[&str]) -> Ran {
    judge(&example("flush.svt"), &example(record), more)
}

/// strong(a)
fn strong() -> Vec<u8> {
    table(&[[1, 0, 0], [16, 0, 0], [32, 1, 0]])
}

/// What is told of a broken record where no level is required, after its name.
const UNSAID: &str = " is broken, and no level was required, so the status does not say so: --require 1 makes it 1\n";

#[test]
fn a_level_has_status_0_where_none_is_required() {
    for (name, line) in [
        ("flush.svw", "level 2 tested yes"),
        ("flush-open.svw", "level 1 tested yes"),
        ("flush-broken.svw", "level 0 tested yes"),
        ("flush-unasked.svw", "level 2 tested yes"),
    ] {
        let said = flush(name, &[]);
        assert_eq!((said.status, said.line()), (0, line));
        assert_eq!(said.out.lines().nth(1), Some(""));
        let told = match name {
            "flush-broken.svw" => format!("kit judge: {}{UNSAID}", example(name)),
            _ => String::new(),
        };
        assert_eq!(said.err, told);
    }
}

#[test]
fn require_compares_the_level() {
    for (required, reached) in [("0", true), ("1", true), ("2", false), ("3", false)] {
        let said = flush("flush-open.svw", &["--require", required]);
        assert_eq!(said.status, u8::from(!reached), "{required}");
        let expected = match reached {
            true => format!("\nRequired {required}: reached.\n"),
            false => format!("\nRequired {required}: not reached.\n"),
        };
        assert!(
            said.out.contains(&format!("{expected}\nTable: ")),
            "{}",
            said.out
        );
    }
    for (required, status) in [("--require=0", 0), ("--require=1", 1)] {
        let said = flush("flush-broken.svw", &[required]);
        assert_eq!((said.status, said.err.as_str()), (status, ""));
    }
    // what else is required says nothing of the level
    let said = flush("flush-broken.svw", &["--tested", "--json"]);
    assert_eq!((said.status, said.err.contains(UNSAID)), (0, true));
}

#[test]
fn tested_asks_for_a_test() {
    let [table, ticks, stopped] = ["write.svt", "write.svw", "write-stopped.svw"].map(example);
    assert_eq!(judge(&table, &ticks, &["--tested"]).status, 0);
    let said = judge(&table, &stopped, &["--tested"]);
    assert_eq!((said.status, said.line()), (1, "level 2 tested no"));
    assert!(said.out.contains("\nRequired tested: not reached.\n\n"));
    let both = ["--require", "2", "--tested"];
    assert_eq!(judge(&table, &ticks, &both).status, 0);
    assert_eq!(judge(&table, &stopped, &both).status, 1);
    assert_eq!(flush("flush-open.svw", &both).status, 1);
}

/// The weak(0) of always is reached at every sample, so that the record without an acknowledge tests the
/// assertion.
#[test]
fn asked_asks_for_every_implication() {
    assert_eq!(flush("flush.svw", &["--asked"]).status, 0);
    assert_eq!(flush("flush-unasked.svw", &["--tested"]).status, 0);
    let said = flush("flush-unasked.svw", &["--tested", "--asked"]);
    assert_eq!(said.status, 1);
    let required = "\nRequired tested: reached.\nRequired asked: not reached.\n";
    assert!(said.out.contains(&format!("{required}\n")), "{}", said.out);
    assert!(
        said.out.contains(
            "\nTested, but not every |-> was asked.\n\
             Never asked: s0 |-> strong((!s1)[*1:$] ##0 s2), reached from samples 0 to 2: its left side \
             never matched from there.\n"
        ),
        "{}",
        said.out
    );
    let json = flush("flush-unasked.svw", &["--asked", "--json"]);
    assert_eq!(json.status, 1);
    let unasked = r#""left":"s0","reached":[0,1,2],"matched":[],"asked":false}],"once":false,"#;
    assert!(json.out.contains(unasked), "{}", json.out);
    let required =
        r#""required":{"level":null,"tested":false,"asked":true,"named":false,"reached":false}"#;
    assert!(json.out.contains(required), "{}", json.out);
    // an assertion without |-> leaves none unasked
    let [table, record] = ["p1.svt", "p1.svw"].map(example);
    let said = judge(&table, &record, &["--asked"]);
    assert!(said.out.contains("\nRequired asked: reached.\n\n"));
    assert_eq!(said.status, 0);
}

/// A lost flush: acknowledged at sample 1, and the supply drops at sample 3 before the strobe.
#[test]
fn what_is_asked_once_is_said() {
    let folder = Folder::new();
    let assertion = "ack |-> strong((!drop)[*1:$] ##0 strobe)";
    let text = |assertion: &str| format!("signals ack drop strobe\n{assertion}\n");
    let once = folder.file("once.txt", text(assertion));
    let lost = example("flush-broken.svw");
    let said = judge(&once, &lost, &[]);
    assert_eq!((said.status, said.line()), (0, "level 3 tested no"));
    let always = format!("always ({assertion})");
    let note = format!(
        "\nAsked once: the whole assertion, at the first sample only. To ask at every sample, write\n  {always}\n\
         or say with --once that once is meant.\n"
    );
    assert!(said.out.contains(&note), "{}", said.out);
    let meant = judge(&once, &lost, &["--once"]);
    assert_eq!(meant.out, said.out.replace(note.trim_start(), ""));
    // the object says it either way
    for more in [&["--json"][..], &["--json", "--once"]] {
        let json = judge(&once, &lost, more).out;
        assert!(json.contains(r#","once":true,"#), "{json}");
    }
    // what is suggested sees the lost flush, and has nothing to say of once
    let always = folder.file("always.txt", text(&always));
    let said = judge(&always, &lost, &[]);
    assert_eq!((said.status, said.line()), (0, "level 0 tested yes"));
    assert!(!said.out.contains("--once"), "{}", said.out);
    assert_eq!(judge(&always, &lost, &["--once"]), said);
    assert!(judge(&always, &lost, &["--json"])
        .out
        .contains(r#","once":false,"#));
}

#[test]
fn json_is_one_line_and_has_the_same_status() {
    let said = flush("flush-broken.svw", &["--json", "--require", "1"]);
    assert_eq!(said.status, 1);
    assert!(said
        .out
        .starts_with(r#"{"line":"level 0 tested yes","engine":"both","level":0,"#));
    assert!(said.out.ends_with("}\n"));
    assert_eq!(said.out.lines().count(), 1);
    let decisive = r#""from":1,"level":0,"turned":false,"closed":3,"matched":null}"#;
    assert!(said.out.contains(r#""levels":[2,2,1,1,0,0],"closed":3,"#));
    assert!(said.out.contains(r#""decisive":{"node":9,"#));
    assert!(said.out.contains(decisive));
    let folder = Folder::new();
    let said = judge_in(&folder, b"SVT", &record(&[]), &["--json"]);
    assert_eq!(said.status, 3);
    assert!(said.out.starts_with(r#"{"line":"refused 1 at 0","#));
    assert_eq!(said.out.lines().count(), 1);
}

#[test]
fn a_wrong_command_line_has_status_2() {
    for more in [
        &["--require", "4"] as &[&str],
        &["--require", "03"],
        &["--require", ""],
        &["--require", "-1"],
        &["--require"],
        &["--requires", "3"],
        &["--json", "--json"],
        &["more.svw"],
    ] {
        let said = flush("flush.svw", more);
        assert_eq!((said.status, said.out.as_str()), (2, ""), "{more:?}");
        assert!(said.err.contains("kit judge --help"), "{}", said.err);
    }
    let none = kit(["judge"]);
    assert_eq!(none.status, 2);
    assert!(none.err.contains("TABLE and RECORD must be given"));
}

#[test]
fn a_file_that_cannot_be_read_has_status_4() {
    let folder = Folder::new();
    let good = folder.file("r.svw", record(&[1]));
    let table = folder.file("t.svt", strong());
    let [missing, none] = ["missing", ""].map(|name| folder.path(name));
    for (table, record, why) in [
        (&missing, &good, "there is no such file"),
        (&table, &missing, "there is no such file"),
        (&none, &good, "this is a folder"),
        (&table, &none, "this is a folder"),
    ] {
        for more in [&[] as &[&str], &["--json"]] {
            let said = judge(table, record, more);
            assert_eq!((said.status, said.out.as_str()), (4, ""));
            assert!(said.err.contains(why), "{}", said.err);
        }
    }
}

/// Asserts that a refusal names its number, its node and its file.
fn refused(folder: &Folder, table: &[u8], record: &[u8], number: u8, node: u8, file: &str) {
    // with 13 the fast engine alone refuses
    let engine = if number == 13 { "fast" } else { "both" };
    let said = judge_in(folder, table, record, &["--engine", engine]);
    let line = format!("refused {number} at {node}");
    assert_eq!((said.status, said.line()), (3, line.as_str()));
    let place = match number {
        6 | 7 | 9 => format!(" at node {node}"),
        _ => String::new(),
    };
    let sentence = format!("\nThe {file} is refused with number {number}{place}: ");
    assert!(said.out.contains(&sentence), "{}", said.out);
    let swapped = number == 2;
    assert_eq!(said.out.contains("kit show "), file == "table" && !swapped);
    assert_eq!(said.out.contains("the TABLE comes first"), swapped);
    assert_eq!(
        said.out.contains("is a sequence, and the judge"),
        number == 12
    );
    let json = judge_again(folder, &["--json", "--engine", engine]).out;
    let object =
        format!(r#""refused":{{"file":"{file}","number":{number},"node":{node},"reason":""#);
    assert!(json.contains(&object), "{json}");
}

#[test]
fn every_refusal_of_a_table_names_the_table() {
    let folder = Folder::new();
    let good = record(&[1]);
    // Each table comes with a good record and with one that is refused, too.
    for record in [&good[..], b"SVX\x01\0\0"] {
        let refused = |table: &[u8], number, node| {
            refused(&folder, table, record, number, node, "table");
        };
        refused(b"SVT\x01\0", 1, 0);
        refused(b"SVW\x01\0\x01\x01\0\0\0", 2, 0);
        refused(b"SVT\x04\0\x01\x01\0\0\0", 3, 0);
        refused(b"SVT\x01\x01\x01\x01\0\0\0", 3, 0);
        refused(b"SVT\x01\0\0", 4, 0);
        refused(
            &[b"SVT\x01\0\x79".to_vec(), vec![0; 4 * 121]].concat(),
            4,
            0,
        );
        refused(b"SVT\x01\0\x02\x01\0\0\0", 5, 0);
        refused(&[strong(), vec![0]].concat(), 5, 0);
        refused(&table(&[[1, 0, 0], [16, 0, 0], [50, 1, 0]]), 6, 2);
        // a rise in version 1, and of no signal in version 2
        refused(&table(&[[5, 0, 0], [16, 0, 0], [32, 1, 0]]), 6, 0);
        refused(&table_2(&[[1, 0, 0], [6, 64, 0]]), 6, 1);
        refused(
            &table(&[[1, 0, 0], [16, 0, 0], [16, 0, 0], [32, 2, 0]]),
            7,
            1,
        );
        refused(&table(&[[1, 0, 0]]), 8, 0);
        refused(
            &table(&[[1, 0, 0], [16, 0, 0], [20, 1, 0], [32, 2, 0]]),
            9,
            3,
        );
        refused(&table(&[[1, 0, 0], [16, 0, 0]]), 12, 0);
        // nine nexttimes under a clock become 14 nodes each: over 120
        let mut nexttimes = vec![[1, 0, 0], [16, 0, 0], [32, 1, 0]];
        nexttimes.extend((2..11).map(|below| [38, below, 0]));
        nexttimes.push([40, 0, 11]);
        refused(&table(&nexttimes), 13, 0);
    }
}

#[test]
fn every_refusal_of_a_record_names_the_record() {
    let folder = Folder::new();
    let refused = |record: &[u8], number| {
        refused(&folder, &strong(), record, number, 0, "record");
    };
    refused(b"", 1);
    refused(b"SVW\x01\0", 1);
    refused(b"SVT\x01\0\0", 2);
    refused(b"SVW\x01\x01\0", 3);
    refused(b"SVW\x02\0\0", 3);
    refused(&record(&[0; 64]), 10);
    refused(&record(&[1])[..13], 5);
    refused(&[record(&[1]), vec![b'\n']].concat(), 5);
    refused(&[record(&[1]), vec![7; 1 << 20]].concat(), 5);
}

#[test]
fn a_wrong_mark_says_what_the_file_may_be() {
    let folder = Folder::new();
    let good = folder.file("good.svw", record(&[1]));
    let text = folder.file("bus.txt", "signals a\nstrong(a)");
    let other = folder.file("bus.sva", "signals a\nstrong(a)");
    let strong = folder.file("t.svt", strong());
    let elf = folder.file("elf", b"\x7fELF\x02\x01\x01\0");
    let first = "the TABLE comes first, and the RECORD second";
    for (table, record, words) in [
        (
            &good,
            &text,
            format!("{good} has the mark of a record: {first}.\n"),
        ),
        (
            &good,
            &strong,
            format!("{good} has the mark of a record: {first}.\n"),
        ),
        (
            &other,
            &good,
            format!("{other} may be a text: the name of a text ends in .txt.\n"),
        ),
        (&elf, &good, format!("kit show {elf} shows the table.\n")),
        (
            &text,
            &strong,
            format!("{strong} has the mark of a table: {first}.\n"),
        ),
        (
            &strong,
            &text,
            format!(
                "{text} may be a text or a waveform: kit record makes a record of a waveform.\n"
            ),
        ),
        (&strong, &elf, "number 2: wrong mark.\n".to_string()),
    ] {
        let said = judge(table, record, &[]);
        assert_eq!((said.status, said.line()), (3, "refused 2 at 0"));
        assert!(said.out.ends_with(&words), "{}", said.out);
    }
}

/// Worked out by hand: ack, signal 0, rises at samples 0 and 2, and strobe, signal 1, at 1 and 4.
#[test]
fn a_text_with_a_rise_is_judged() {
    let folder = Folder::new();
    let text = folder.file(
        "rise.txt",
        "signals ack strobe\n(rose(ack) |-> strong(1[*1:$] ##0 rose(strobe))) until strong(0)\n",
    );
    let record = folder.file("rise.svw", record(&[1, 2, 3, 0, 2]));
    let said = judge(&text, &record, &[]);
    assert_eq!((said.status, said.line()), (0, "level 2 tested yes"));
    // at sample 2 strobe is 1 still, and has not risen
    assert!(
        said.out.contains(
            "\n  sample  start   0   1   2   3   4\n  level       2   1   2   1   1   2\n"
        ),
        "{}",
        said.out
    );
    let json = judge(&text, &record, &["--json"]).out;
    assert!(
        json.contains(
            r#""assertion":"(rose(ack) |-> strong(1[*1:$] ##0 rose(strobe))) until strong(0)""#
        ),
        "{json}"
    );
    assert!(
        json.contains(r#""signals":[{"number":0,"name":"ack"},{"number":1,"name":"strobe"}]"#),
        "{json}"
    );
    assert!(json.contains(r#""levels":[2,1,2,1,1,2]"#), "{json}");
}

/// examples/rise.txt, with its levels and decisive parts by hand.
#[test]
fn the_example_that_rises_is_judged() {
    let rise = |record: &str| {
        judge(
            &example("rise.svt"),
            &example(record),
            &["--names", &example("rise.txt")],
        )
    };
    let said = rise("rise.svw");
    assert_eq!((said.status, said.line()), (0, "level 2 tested yes"));
    assert!(
        said.out
            .contains("\n  level       2   2   1   1   2   2   2   1   2   2\n"),
        "{}",
        said.out
    );
    let said = rise("rise-stuck.svw");
    assert_eq!((said.status, said.line()), (0, "level 0 tested yes"));
    assert!(
        said.out.contains("\n  level       2   2   1   1   0\n"),
        "{}",
        said.out
    );
    let decisive = "\nDecisive: strong((!fell(supply))[*1:$] ##0 rose(strobe)), asked from sample 1: broken at sample 3, ";
    assert!(said.out.contains(decisive), "{}", said.out);
}

#[test]
fn the_longest_record_is_judged() {
    let folder = Folder::new();
    // strong(a ##1 a) closes at its second sample; 63 samples of a
    let then = table(&[[1, 0, 0], [16, 0, 0], [16, 0, 0], [17, 1, 2], [32, 3, 0]]);
    let said = judge_in(&folder, &then, &record(&[1; 63]), &[]);
    assert_eq!((said.status, said.line()), (0, "level 3 tested yes"));
    assert!(said.out.contains("\nClosed at sample 1: "));
    assert!(said.out.lines().any(|line| line.ends_with(" 60  61  62")));
    let none = judge_in(&folder, &then, &record(&[]), &[]);
    assert_eq!((none.status, none.line()), (0, "level 1 tested yes"));
    assert!(none.out.contains("\n  sample  start\n  level       1\n"));
}

/// A table and a record of one input: the table has 6 + 4 times its count bytes, or all there is.
fn split(input: &[u8]) -> (&[u8], &[u8]) {
    let count = input.get(5).map_or(0, |count| usize::from(*count));
    input.split_at(input.len().min(6 + 4 * count))
}

#[test]
fn the_first_line_is_the_programs_on_random_and_damaged_inputs() {
    let folder = Folder::new();
    let (mut levels, mut refusals) = (0, 0);
    let inputs = (0..4_000).flat_map(|seed| match random_case(seed) {
        Case::Program { input } => {
            let (table, record) = split(&input);
            let rising = [&rising(table, seed), record].concat();
            vec![(seed, input), (seed, rising)]
        }
        _ => Vec::new(),
    });
    for (seed, input) in inputs {
        let line = xistomar::line(&input);
        let (table, record) = split(&input);
        // the program has the fast engine: with 13 it refuses what the plain one judges
        let engine = if line == "refused 13 at 0" {
            "fast"
        } else {
            "both"
        };
        let said = judge_in(&folder, table, record, &["--engine", engine]);
        assert_eq!(said.line(), line, "seed {seed}");
        let refused = line.starts_with("refused");
        assert_eq!(said.status, if refused { 3 } else { 0 });
        let json = judge_again(&folder, &["--json", "--engine", engine]);
        assert_eq!(json.status, said.status);
        assert!(json.out.starts_with(&format!(r#"{{"line":"{line}","#)));
        *if refused { &mut refusals } else { &mut levels } += 1;
    }
    assert!(levels > 300 && refusals > 200, "{levels} {refusals}");
}

#[test]
fn the_help_names_every_key_of_the_object() {
    let help = kit(["judge", "--help"]);
    assert_eq!(help.status, 0);
    let object = flush("flush.svw", &["--json"]).out;
    let object: serde_json::Value = serde_json::from_str(&object).unwrap();
    let keys: Vec<&String> = object.as_object().unwrap().keys().collect();
    assert_eq!(keys.len(), 22);
    // name and meaning stand in the line of level
    for key in keys
        .into_iter()
        .filter(|key| *key != "name" && *key != "meaning")
    {
        assert!(help.out.contains(&format!("\n  {key} ")), "{key}");
    }
    assert!(help.out.lines().all(|line| line.chars().count() <= 100));
}
