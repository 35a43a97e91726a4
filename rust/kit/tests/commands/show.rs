//! `kit show`: the text of a table, its nodes, and what it says of a refused one.
use crate::support::{example, example_bytes, kit, record, table, table_2, Folder, Ran};
use std::fs;

/// What kit show prints of some bytes, with its status.
fn shown(bytes: &[u8]) -> (u8, String) {
    let folder = Folder::new();
    let ran = kit(["show", &folder.file("x.svt", bytes)]);
    assert_eq!(ran.err, "");
    (ran.status, ran.out)
}

#[test]
fn a_table_is_shown_as_text_that_is_read_again() {
    let folder = Folder::new();
    let names = folder.file("names.txt", "signals ack=0 drop=1 strobe=2 spare=9\n");
    let Ran {
        status,
        out: text,
        err,
    } = kit(["show", &example("flush.svt"), "--names", &names]);
    assert_eq!((status, err.as_str()), (0, ""));
    let assertion = "always (ack |-> strong((!drop)[*1:$] ##0 strobe))";
    assert_eq!(
        text,
        format!("signals ack=0 drop=1 strobe=2 spare=9\n\n{assertion}\n")
    );
    // table, show, table: the same bytes
    let text = folder.file("flush.txt", text);
    let [one, two] = ["one.svt", "two.svt"].map(|name| folder.path(name));
    assert_eq!(kit(["table", &text, "-o", &one]).status, 0);
    let again = folder.file("again.txt", kit(["show", &one]).out);
    assert_eq!(kit(["table", &again, "-o", &two]).status, 0);
    assert_eq!(fs::read(&one).unwrap(), fs::read(&two).unwrap());
    // a text is shown as the kit writes it
    let Ran { status, out, .. } = kit(["show", &text]);
    assert_eq!((status, out), (0, fs::read_to_string(&text).unwrap()));
}

#[test]
fn without_names_signals_are_called_by_their_numbers() {
    let Ran { status, out, .. } = kit(["show", &example("p10.svt")]);
    let wanted = "signals s0=0 s1=1 s2=2\n\n@(s2) strong(s0 ##1 s1)\n";
    assert_eq!((status, out.as_str()), (0, wanted));
}

#[test]
fn the_nodes_are_listed() {
    let Ran { status, out, .. } = kit(["show", &example("p10.svt"), "--nodes"]);
    let wanted = "version 1, 8 nodes\n    \
    0  op   1  x   0  y   0  signal            s0
    1  op   1  x   1  y   0  signal            s1
    2  op   1  x   2  y   0  signal            s2
    3  op  16  x   0  y   0  letter            s0
    4  op  16  x   1  y   0  letter            s1
    5  op  17  x   3  y   4  ##1               s0 ##1 s1
    6  op  32  x   5  y   0  strong            strong(s0 ##1 s1)
    7  op  40  x   2  y   6  clocked property  @(s2) strong(s0 ##1 s1)
";
    assert_eq!((status, out.as_str()), (0, wanted));
}

/// strong(rose(ack)), which needs version 2, and strong(ack), which does not.
#[test]
fn a_table_of_version_2_is_shown_and_its_version_told() {
    let folder = Folder::new();
    let rose = folder.file("rose.svt", table_2(&[[5, 0, 0], [16, 0, 0], [32, 1, 0]]));
    let plain = folder.file("plain.svt", table_2(&[[1, 0, 0], [16, 0, 0], [32, 1, 0]]));
    // the rise is not used, so that the text does without it
    let unused = folder.file(
        "unused.svt",
        table_2(&[[6, 3, 0], [1, 0, 0], [16, 1, 0], [32, 2, 0]]),
    );
    let names = folder.file("names.txt", "signals ack\n");
    let shown = |words: &[&str]| {
        let ran = kit([&["show", "--names", &names], words].concat());
        assert_eq!((ran.status, ran.err.as_str()), (0, ""));
        ran.out
    };
    assert_eq!(shown(&[&rose]), "signals ack=0\n\nstrong(rose(ack))\n");
    let comment = "// the table has version 2, and kit table writes this text as version 1: nothing in it needs more\n";
    for table in [&plain, &unused] {
        assert_eq!(
            shown(&[table]),
            format!("{comment}signals ack=0\n\nstrong(ack)\n")
        );
    }
    let rows = "    0  op   5  x   0  y   0  rose              rose(ack)
    1  op  16  x   0  y   0  letter            rose(ack)
    2  op  32  x   1  y   0  strong            strong(rose(ack))
";
    assert_eq!(
        shown(&["--nodes", &rose]),
        format!("version 2, 3 nodes\n{rows}")
    );
    assert!(shown(&["--nodes", &plain]).starts_with("version 2, 3 nodes\n    0  op   1"));
    // what is shown is read again: the first byte for byte, the second as version 1
    for (table, version) in [(&rose, 2), (&plain, 1), (&unused, 1)] {
        let text = folder.file("again.txt", shown(&[table]));
        let again = folder.path("again.svt");
        assert_eq!(kit(["table", &text, "-o", &again]).status, 0);
        let again = fs::read(again).unwrap();
        assert_eq!(again[3], version);
        assert_eq!(again == fs::read(table).unwrap(), version == 2);
    }
}

#[test]
fn what_the_judge_refuses_is_said_in_a_comment() {
    let (status, out) = shown(&table(&[[1, 0, 0, 0], [16, 0, 0, 0]]));
    let words = "a sequence: it is for match ends, and the judge refuses it with 12";
    assert_eq!(
        (status, out),
        (0, format!("// {words}\nsignals s0=0\n\ns0\n"))
    );
    // 14 letters under a clock, each with its ##1, are 126 nodes and more
    let mut nodes = vec![[1, 0, 0, 0], [16, 0, 0, 0]];
    for _ in 0..13 {
        let last = nodes.len() as u8 - 1;
        nodes.extend([[16, 0, 0, 0], [17, last, last + 1, 0]]);
    }
    let last = nodes.len() as u8 - 1;
    nodes.extend([[32, last, 0, 0], [40, 0, last + 1, 0]]);
    let (status, out) = shown(&table(&nodes));
    assert_eq!(status, 0);
    assert!(
        out.starts_with("// the fast engine and the program refuse it with 13"),
        "{out}"
    );
    let folder = Folder::new();
    let text = folder.file("large.txt", out);
    assert_eq!(
        kit(["table", &text, "-o", &folder.path("large.svt")]).status,
        0
    );
}

#[test]
fn refusals_1_to_5_say_what_was_found() {
    let cases: [(&[u8], &str); 8] = [
        (b"", "refused 1 at 0\nfewer than 6 bytes\nthe file has 0 bytes, and a table at least 6\n"),
        (b"S", "refused 1 at 0\nfewer than 6 bytes\nthe file has 1 byte, and a table at least 6\n"),
        (
            b"SVW\x01\x00\x00",
            "refused 2 at 0\nwrong mark\na table begins with 53 56 54, which is SVT, and this file with 53 56 57, the mark of a record\n",
        ),
        (
            b"strong(a)\n",
            "refused 2 at 0\nwrong mark\na table begins with 53 56 54, which is SVT, and this file with 73 74 72: this may be a text, and the name of a text ends in .txt\n",
        ),
        (
            b"\x7fELF\x00\x00",
            "refused 2 at 0\nwrong mark\na table begins with 53 56 54, which is SVT, and this file with 7f 45 4c\n",
        ),
        (b"SVT\x01\x00\x00", "refused 4 at 0\ncount 0 or over 120\nthe count is 0\n"),
        (b"SVT\x01\x00\x79", "refused 4 at 0\ncount 0 or over 120\nthe count is 121\n"),
        (
            b"SVT\x01\x00\x02\x01\x00\x00\x00",
            "refused 5 at 0\nlength disagrees with the count\na table with the count 2 has 14 bytes, and the file has 10 bytes\n",
        ),
    ];
    for (bytes, wanted) in cases {
        assert_eq!(shown(bytes), (3, wanted.to_string()));
    }
    // 0, 4, 257 and 259 are no version of a table
    for bytes in [[0, 0], [4, 0], [1, 1], [3, 1]] {
        let file = [b"SVT", &bytes[..], &[1]].concat();
        let version = u16::from_le_bytes(bytes);
        let reason = xistomar::check(&file).unwrap_err().reason();
        let found = format!("the version is {version}, and that of a table is 1, 2 or 3");
        assert_eq!(
            shown(&file),
            (3, format!("refused 3 at 0\n{reason}\n{found}\n"))
        );
    }
    let mut long = table(&[[1, 0, 0, 0]]);
    long.resize(100_000, 0);
    assert!(shown(&long)
        .1
        .ends_with("and the file has 512 bytes or more\n"));
}

/// The lines after the words of docs/FORMAT.md, for a table that is refused at its last node.
fn found_in(table: &[u8], number: u8) -> String {
    let (status, out) = shown(table);
    let line = format!("refused {number} at {}\n", table[5] - 1);
    assert_eq!(status, 3);
    assert!(out.starts_with(&line), "{out}");
    let found = out.lines().skip(2).take_while(|line| !line.is_empty());
    found.collect::<Vec<_>>().join("\n")
}

#[test]
fn refusal_6_says_which_of_its_reasons_it_is() {
    let (a, letter) = ([1, 0, 0, 0], [16, 0, 0, 0]);
    let needs = "needs version 2, and this table has version 1: with 2 in byte 3 it is known";
    let cases: [(&[[u8; 4]], &str); 15] = [
        (&[a, [99, 0, 0, 0]], "unknown operator: 99"),
        (&[a, [7, 7, 7, 7]], "unknown operator: 7"),
        (&[a, [5, 7, 7, 7]], &format!("unknown operator: operator 5 (rose) {needs}")),
        (&[a, [6, 0, 0, 0]], &format!("unknown operator: operator 6 (fell) {needs}")),
        (&[[0, 2, 0, 0]], "bad x or y: x is 2, and a constant is 0 or 1"),
        (&[[1, 64, 0, 0]], "bad x or y: x is 64, and a signal is 0 to 63"),
        (&[[1, 0, 3, 0]], "bad x or y: y is 3, and it is not used here, so 0 is due"),
        (&[a, [16, 0, 1, 0]], "bad x or y: y is 1, and it is not used here, so 0 is due"),
        (&[a, [16, 0, 0, 8]], "fourth byte not 0: it is 8"),
        (&[a, [2, 1, 0, 0]], "operand not below: x is 1"),
        (&[a, [3, 0, 9, 0]], "operand not below: y is 9"),
        (&[a, [32, 0, 0, 0]], "operand of wrong sort: x is node 0, a boolean, where a sequence is due"),
        (&[a, letter, [40, 0, 1, 0]], "operand of wrong sort: y is node 1, a sequence, where a property is due"),
        (
            &[a, letter, [39, 1, 7, 2]],
            "fourth byte not 0: it is 2\noperand of wrong sort: x is node 1, a sequence, where a property is due\noperand not below: y is 7",
        ),
        (&[a, letter, [3, 1, 0, 0]], "operand of wrong sort: x is node 1, a sequence, where a boolean is due"),
    ];
    for (nodes, wanted) in cases {
        assert_eq!(found_in(&table(nodes), 6), wanted, "{nodes:?}");
    }
}

#[test]
fn refusal_6_of_what_rises_and_falls() {
    let a = [1, 0, 0, 0];
    let cases: [(&[[u8; 4]], &str); 7] = [
        (
            &[[5, 64, 0, 0]],
            "bad x or y: x is 64, and a signal is 0 to 63",
        ),
        (
            &[[6, 255, 0, 0]],
            "bad x or y: x is 255, and a signal is 0 to 63",
        ),
        (
            &[a, [5, 0, 1, 0]],
            "bad x or y: y is 1, and it is not used here, so 0 is due",
        ),
        (&[a, [6, 63, 0, 9]], "fourth byte not 0: it is 9"),
        (
            &[[5, 0, 0, 0], [32, 0, 0, 0]],
            "operand of wrong sort: x is node 0, a boolean, where a sequence is due",
        ),
        (&[a, [7, 0, 0, 0]], "unknown operator: 7"),
        (&[a, [4, 0, 1, 0]], "operand not below: y is 1"),
    ];
    for (nodes, wanted) in cases {
        assert_eq!(found_in(&table_2(nodes), 6), wanted, "{nodes:?}");
    }
    let (_, out) = shown(&table_2(&[a, [5, 1, 0, 0]]));
    assert_eq!(
        out,
        "refused 8 at 0\nroot is a boolean\nthe root is node 1, a rose\n"
    );
    // in version 1 the nodes are listed with what they would be
    let (_, out) = shown(&table(&[a, [5, 0, 0, 0], [6, 0, 0, 0]]));
    assert!(
        out.ends_with(
            "\n    0  op   1  x   0  y   0  signal\n\
             >   1  op   5  x   0  y   0  rose, of version 2\n\
             \x20   2  op   6  x   0  y   0  fell, of version 2\n"
        ),
        "{out}"
    );
}

#[test]
fn a_refused_node_is_shown_among_the_others() {
    let mut nodes = vec![[1, 0, 0, 0], [16, 0, 0, 0], [99, 0, 0, 5]];
    nodes.extend([[0, 0, 0, 0]; 4]);
    let page = "node with unknown operator, bad x, y or fourth byte, operand not below, operand of wrong sort";
    let wanted = format!(
        "refused 6 at 2\n{page}\nunknown operator: 99\n\n\
         \x20   0  op   1  x   0  y   0  signal\n\
         \x20   1  op  16  x   0  y   0  letter\n\
         >   2  op  99  x   0  y   0  unknown operator, fourth byte 5\n\
         \x20   3  op   0  x   0  y   0  constant\n\
         \x20   4  op   0  x   0  y   0  constant\n"
    );
    assert_eq!(shown(&table(&nodes)), (3, wanted));
}

#[test]
fn refusals_7_to_9_say_what_was_found() {
    let (a, letter) = ([1, 0, 0, 0], [16, 0, 0, 0]);
    let (status, out) = shown(&table(&[a, letter, [17, 1, 1, 0], [32, 2, 0, 0]]));
    assert_eq!(status, 3);
    assert!(out.starts_with("refused 7 at 1\n"), "{out}");
    assert!(
        out.contains("\nnode 1 stands in 2 operand places: of nodes 2, 2\n"),
        "{out}"
    );
    assert!(out.contains("\n>   1  op  16"), "{out}");
    let (_, out) = shown(&table(&[a, letter, letter, [32, 2, 0, 0]]));
    assert!(out.starts_with("refused 7 at 1\n"), "{out}");
    assert!(
        out.contains("\nnode 1 stands in no operand place\n"),
        "{out}"
    );
    let (_, out) = shown(&table(&[a, [2, 0, 0, 0]]));
    assert_eq!(
        out,
        "refused 8 at 0\nroot is a boolean\nthe root is node 1, a boolean not\n"
    );
    let (_, out) = shown(&table(&[a, letter, [20, 1, 0, 0], [33, 2, 0, 0]]));
    assert!(out.starts_with("refused 9 at 3\n"), "{out}");
    let words = "its sequence matches no stretch of one or more samples, whatever they are";
    assert!(out.contains(&format!("\nweak(s0[*0]): {words}\n")), "{out}");
    assert!(out.contains("\n>   3  op  33"), "{out}");
}

#[test]
fn cut_and_random_files_are_refused_by_their_number() {
    for name in ["write.svt", "rise.svt", "flush.svt"] {
        cut_and_changed(&example_bytes(name));
    }
}

/// Asserts that a good table is refused wherever it is cut, and shown or refused as the check says where
/// a byte of it is another.
fn cut_and_changed(good: &[u8]) {
    for length in 0..good.len() {
        let (status, out) = shown(&good[..length]);
        let number = if length < 6 { 1 } else { 5 };
        assert_eq!(status, 3);
        assert!(
            out.starts_with(&format!("refused {number} at 0\n")),
            "{out}"
        );
    }
    for place in 0..good.len() {
        for value in [0, 1, 2, 5, 16, 99, 255] {
            let mut bytes = good.to_vec();
            bytes[place] = value;
            let (status, out) = shown(&bytes);
            match xistomar::check(&bytes) {
                Ok(()) => assert_eq!(status, 0),
                Err(refusal) => {
                    let line = format!("refused {} at {}\n", refusal.number(), refusal.node());
                    assert!(out.starts_with(&line), "{out}");
                    // the third line says what was found
                    assert!(
                        out.lines().nth(2).is_some_and(|line| !line.is_empty()),
                        "{out}"
                    );
                }
            }
        }
    }
}

/// What kit show prints of a record, with its status.
fn shown_record(bytes: &[u8]) -> (u8, String) {
    let folder = Folder::new();
    let ran = kit(["show", &folder.file("x.svw", bytes)]);
    assert_eq!(ran.err, "");
    (ran.status, ran.out)
}

#[test]
fn a_record_is_shown_sample_by_sample() {
    let folder = Folder::new();
    let names = folder.file("names.txt", "signals ack=0 drop=1 strobe=2\n");
    // 5 is signals 0 and 2, and 0x12 is signals 1 and 4
    let path = folder.file("x.svw", record(&[5, 0, 0x12]));
    let ran = kit(["show", &path, "--names", &names]);
    let unknown = format!("; names are not known of the record, for there is no {path}.json");
    let wanted = format!(
        "3 samples{unknown}\nsample 0  0x05  ack strobe\nsample 1  0x00  -\nsample 2  0x12  drop s4\n"
    );
    assert_eq!((ran.status, ran.out), (0, wanted), "{}", ran.err);
    let (status, one) = shown_record(&record(&[1 << 63 | 9]));
    assert!(status == 0 && one.starts_with("1 sample; names are not known"));
    assert!(
        one.ends_with("\nsample 0  0x8000000000000009  s0 s3 s63\n"),
        "{one}"
    );
    let (status, none) = shown_record(&record(&[]));
    assert!(status == 0 && none.starts_with("0 samples; ") && none.lines().count() == 1);
    let (_, long) = shown_record(&record(&[1; 63]));
    let has = |line: &str| long.lines().any(|known| known == line);
    assert!(
        has("sample 0   0x1  s0") && has("sample 62  0x1  s0"),
        "{long}"
    );
    let ran = kit(["show", &path, "--nodes"]);
    assert_eq!((ran.status, ran.out.as_str()), (2, ""));
    let words = "kit show: --nodes goes with a table: a record has samples and no nodes\n";
    assert!(ran.err.starts_with(words), "{}", ran.err);
    assert_eq!(kit(["show", &folder.path("none.svw")]).status, 4);
}

#[test]
fn a_refused_record_says_what_was_found() {
    let begins = "a record begins with 53 56 57, which is SVW, and this file with";
    let cases: [(&[u8], &str, String); 5] = [
        (
            b"SVW",
            "refused 1 at 0\nfewer than 6 bytes",
            "the file has 3 bytes, and a record at least 6".into(),
        ),
        (
            b"SVT\x01\x00\x00",
            "refused 2 at 0\nwrong mark",
            format!("{begins} 53 56 54, the mark of a table"),
        ),
        (
            b"hello\n",
            "refused 2 at 0\nwrong mark",
            format!("{begins} 68 65 6c"),
        ),
        (
            b"SVW\x01\x00\x40",
            "refused 10 at 0\nmore than 63 samples",
            "the count is 64".into(),
        ),
        // 6 and 2 times 8
        (
            b"SVW\x01\x00\x02\x00",
            "refused 5 at 0\nlength disagrees with the count",
            "a record with the count 2 has 22 bytes, and the file has 7 bytes".into(),
        ),
    ];
    for (bytes, line, found) in cases {
        assert_eq!(shown_record(bytes), (3, format!("{line}\n{found}\n")));
    }
    // a record stays at version 1
    for (bytes, version) in [(b"SVW\x00\x01\x00", 256), (b"SVW\x02\x00\x00", 2)] {
        let reason = xistomar::samples(bytes).unwrap_err().reason();
        let found = format!("the version is {version}, and that of a record is 1");
        let wanted = format!("refused 3 at 0\n{reason}\n{found}\n");
        assert_eq!(shown_record(bytes), (3, wanted));
    }
}

#[test]
fn files_that_cannot_be_read_have_status_4_and_wrong_lines_2() {
    let folder = Folder::new();
    assert_eq!(kit(["show", &folder.path("none.svt")]).status, 4);
    assert_eq!(kit(["show", &folder.path("none.txt")]).status, 4);
    assert_eq!(kit(["show", &folder.path("")]).status, 4);
    let Ran { status, err, .. } = kit(["show", &folder.file("bad.txt", "strong(")]);
    assert_eq!(status, 4);
    assert!(
        err.contains("bad.txt:1:8: a sequence was expected"),
        "{err}"
    );
    let names = folder.file("names.txt", "signals a=64");
    let Ran { status, err, .. } = kit(["show", &example("p1.svt"), "--names", &names]);
    assert_eq!(status, 4);
    assert!(err.contains("signal 64 is above 63"), "{err}");
    assert_eq!(kit(["show"]).status, 2);
    assert_eq!(kit(["show", "a.svt", "b.svt"]).status, 2);
    assert_eq!(kit(["show", "a.svt", "--node"]).status, 2);
    let Ran { status, out, .. } = kit(["show", "--help"]);
    assert_eq!(status, 0);
    assert!(out.lines().all(|line| line.chars().count() <= 100), "{out}");
}
