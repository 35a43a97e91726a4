//! Derived operators from the command line: texts with them, their tables, and what is said of these.
use crate::support::{kit, record, Folder, Ran};

const SIGNALS: &str = "signals a=0 b=1 c=2\n\n";

/// A text with an assertion, and the table that `kit table` makes of it, with what was said.
fn made(folder: &Folder, assertion: &str) -> (String, Ran) {
    let text = folder.file("t.txt", format!("{SIGNALS}{assertion}\n"));
    let table = folder.path("t.svt");
    let said = kit(["table", &text, "-o", &table, "--once"]);
    (table, said)
}

/// Every derived operator, as it is written back.
const TEXTS: [&str; 15] = [
    "strong(a[*3] ##1 b[*2:5])",
    "strong(a[*0:0] or b[*1])",
    "strong(a ##3 b ##[1:4] c)",
    "strong(a ##[0:2] b ##[1:1] c)",
    "strong(a[->2] ##1 (b & c)[=0])",
    "a |=> strong(b)",
    "a |-> b |=> c #-# strong(a)",
    "a #=# weak(b)",
    "always (a |=> s_nexttime strong(b))",
    "s_eventually strong(a)",
    "strong(a) s_until strong(b)",
    "@(c) always (rose(a) |=> strong(b[->1]))",
    "always s_eventually strong(a)",
    "(always strong(a)) and (s_eventually weak(b))",
    "(s_nexttime strong(a)) and strong(b)",
];

#[test]
fn a_text_comes_back_as_it_was() {
    let folder = Folder::new();
    for text in TEXTS {
        let (table, said) = made(&folder, text);
        assert_eq!((said.status, said.err.as_str()), (0, ""), "{text}");
        assert!(said.out.starts_with(&format!("{table}: version 3, ")));
        assert!(
            said.out.ends_with(&format!("\nread as: {text}\n")),
            "{said:?}"
        );
        let names = folder.path("t.txt");
        let shown = kit(["show", &table, "--names", &names]);
        assert_eq!((shown.status, shown.out), (0, format!("{SIGNALS}{text}\n")));
    }
}

#[test]
fn an_expansion_is_shown() {
    let folder = Folder::new();
    let (table, said) = made(&folder, "a |=> strong(b[*2])");
    let line = "version 3, 7 nodes, 14 written out, 2 signals, a property";
    assert_eq!(said.line(), format!("{table}: {line}"));
    let shown = kit(["show", &table, "--expanded"]);
    assert_eq!(
        shown.out,
        "// written out, 14 nodes\nsignals a=0 b=1 c=2\n\n\
         a ##1 1 |-> strong(b[*0] ##1 b ##1 b)\n"
    );
    let nodes = kit(["show", &table, "--expanded", "--nodes"]);
    assert!(nodes.out.starts_with("version 2, 14 nodes\n"), "{nodes:?}");
    let given = kit(["show", &table, "--nodes"]);
    assert!(given.out.starts_with("version 3, 7 nodes\n"), "{given:?}");
    assert!(given
        .out
        .contains("op  23  x   3  y   0  [*2:2]            b[*2]\n"));
    // a table of an older version is its own expansion
    let (older, _) = made(&folder, "strong(a ##1 b)");
    let shown = kit(["show", &older, "--expanded"]);
    assert!(
        shown.out.starts_with("// written out, 6 nodes\n"),
        "{shown:?}"
    );
    let record = folder.file("r.svw", record(&[1]));
    assert_eq!(kit(["show", &record, "--expanded"]).status, 2);
}

/// a, b, the 1 of `|=>` and the 0 of each always are 5 booleans; strong(b) is 2 nodes, its always 5, `|=>` with a
/// 9 and the other always 12. The two 0 are one in the text.
#[test]
fn an_expansion_says_how_many_nodes_its_text_makes() {
    let folder = Folder::new();
    let (table, _) = made(&folder, "always (a |=> always strong(b))");
    let shown = kit(["show", &table, "--expanded"]);
    let words = "// written out, 17 nodes\n\
                 // kit table makes 16 of this text: equal booleans become one, and unused ones go\n";
    assert!(shown.out.starts_with(words), "{}", shown.out);
    let text = folder.file("e.txt", shown.out);
    let again = kit(["table", &text, "-o", &table, "--once"]);
    assert_eq!(
        again.line(),
        format!("{table}: 16 nodes, 2 signals, a property")
    );
}

/// a[*0:8] is 98 nodes, b[->5] 48; `##1`, strong, a, b and not b are five more.
#[test]
fn what_passes_120_is_told_part_by_part() {
    let folder = Folder::new();
    let parts = "One of these parts is to be shortened. Each is told with its nodes at all its places, all that \
                 stands in it included:\n        98  a[*0:8]\n        48  b[->5]\n         3  booleans\n`R[*0:8]` grows with \
                 the square of its numbers; `(R[*0] or R)[*8]` says the same, and grows evenly.\n";
    let words = "written out it has 151 nodes, and 120 is the most";
    let (table, said) = made(&folder, "strong(a[*0:8] ##1 b[->5])");
    assert_eq!(said.status, 0);
    let warning = format!("kit table: warning: {table}: no engine judges it: {words}\n{parts}");
    assert_eq!(said.err, warning);
    let names = folder.path("t.txt");
    let shown = kit(["show", &table, "--names", &names]);
    assert!(shown
        .out
        .starts_with(&format!("// no engine judges it: {words}\n")));

    let record = folder.file("r.svw", record(&[1]));
    let told = format!("No engine judges it: {words}.\n{parts}");
    for engine in ["both", "fast", "plain"] {
        let said = kit(["judge", &names, &record, "--engine", engine]);
        assert_eq!((said.status, said.line()), (3, "refused 13 at 0"));
        assert!(said.out.contains(&told), "{}", said.out);
    }
    let picture = folder.path("p.svg");
    for command in [
        vec!["picture", &names, &record, "-o", &picture],
        vec!["batch", &names, &record],
        vec!["show", &names, "--expanded"],
    ] {
        let said = kit(command);
        assert_eq!(said.status, 3);
        let all = said.out + &said.err;
        assert!(all.contains(told.trim_end()), "{all}");
    }
}

/// always (a |=> strong(b)): a at sample 1, and b missing at sample 2.
#[test]
fn a_verdict_names_the_part_that_was_written() {
    let folder = Folder::new();
    let (table, _) = made(&folder, "always (a |=> strong(b))");
    let file = folder.file("r.svw", record(&[0, 1, 0]));
    let names = folder.path("t.txt");
    let said = kit(["judge", &table, &file, "--names", &names]);
    assert_eq!((said.status, said.line()), (0, "level 0 tested yes"));
    for line in [
        "Assertion: always (a |=> strong(b))",
        "Asked: a |=> strong(b), reached from samples 0 to 1: its right side was asked at sample 2.",
        "Closed at sample 2: a longer record never overturns it.",
        "Decisive: strong(b), asked from sample 2: broken at sample 2, for it can no longer match.",
    ] {
        assert!(said.out.contains(&format!("{line}\n")), "{line}\n{}", said.out);
    }
    let json = kit(["judge", &table, &file, "--names", &names, "--json"]).out;
    let implication = r#""implications":[{"node":5,"part":"a |=> strong(b)","left":"a","reached":[0,1],"matched":[2],"asked":true}]"#;
    assert!(json.contains(implication), "{json}");
    assert!(
        json.contains(r#""decisive":{"node":4,"part":"strong(b)","from":2"#),
        "{json}"
    );

    // still open: always has not been broken
    let file = folder.file("r.svw", record(&[0, 1, 2]));
    let said = kit(["judge", &table, &file, "--names", &names]).out;
    let decisive = "Decisive: the whole assertion, asked from sample 0: held so far, and what comes next may break it.\n";
    assert!(said.contains(decisive), "{said}");
}

/// What is awaited by the strong ones, and what is told where nothing inside of them is decisive alone.
#[test]
fn what_is_awaited_is_told() {
    let folder = Folder::new();
    let file = folder.file("r.svw", record(&[1, 1]));
    for (assertion, level, decisive) in [
        (
            "s_eventually strong(b)",
            1,
            "still waiting, for it has not come yet",
        ),
        (
            "strong(a) s_until strong(b)",
            1,
            "still waiting, for its right side has not come yet",
        ),
        (
            "b #-# strong(a)",
            0,
            "broken at sample 0, for its left side can no longer match from there",
        ),
        (
            "(c[*1:$] ##1 b) #-# strong(a)",
            0,
            "broken at sample 0, for its left side can no longer match from there",
        ),
        (
            "a[*1:$] ##1 b #=# strong(a)",
            1,
            "still waiting, for its left side has not matched from there yet",
        ),
    ] {
        let (table, _) = made(&folder, assertion);
        let said = kit(["judge", &table, &file]);
        assert!(
            said.line().starts_with(&format!("level {level} ")),
            "{assertion}: {}",
            said.line()
        );
        let line = format!("Decisive: the whole assertion, asked from sample 0: {decisive}.\n");
        assert!(said.out.contains(&line), "{assertion}\n{}", said.out);
    }
}

/// What is said of a record by an assertion.
fn judged(assertion: &str, samples: &[u64]) -> String {
    let folder = Folder::new();
    made(&folder, assertion);
    let file = folder.file("r.svw", record(samples));
    let said = kit(["judge", &folder.path("t.txt"), &file, "--once"]);
    assert_eq!(said.status, 0, "{said:?}");
    said.out
}

/// Asserts what is said where the left side matched and the right side is not asked yet: of the implication, and
/// of the decisive part.
fn awaits(assertion: &str, samples: &[u64], [reached, part, matched]: [&str; 3]) {
    let said = judged(assertion, samples);
    let why = format!(
        "its left side matched {matched}, at which the right side is asked, is still to come.\n"
    );
    for line in [
        format!("Never asked: {reached}: {why}"),
        format!("Decisive: {part}; {why}"),
    ] {
        assert!(said.contains(&line), "{line}\n{said}");
    }
}

#[test]
fn a_match_at_the_end_still_awaits_its_sample() {
    let whole = "the whole assertion, asked from sample 0";
    // no a before sample 2
    let reached = "a |=> strong(b), reached from samples 0 to 2";
    let part = "a |=> strong(b), asked from sample 2: held so far";
    let matched = "at sample 2, and the next sample";
    awaits(
        "always (a |=> strong(b))",
        &[0, 0, 1],
        [reached, part, matched],
    );

    let (held, waiting) = (
        format!("{whole}: held so far"),
        format!("{whole}: still waiting"),
    );
    let matched = "at sample 0, and the next sample";
    let reached = "a |=> strong(b), reached from sample 0";
    awaits("a |=> strong(b)", &[1], [reached, &held, matched]);
    let reached = "a #=# strong(b), reached from sample 0";
    awaits("a #=# strong(b)", &[1], [reached, &waiting, matched]);

    // a and then b: the match ends at sample 1
    let reached = "a ##1 b |=> strong(c), reached from sample 0";
    let matched = "at sample 1, and the next sample";
    awaits("a ##1 b |=> strong(c)", &[1, 2], [reached, &held, matched]);
}

#[test]
fn under_a_clock_it_awaits_the_next_tick() {
    // c ticks at sample 0 only, with a
    let reached = "@(c) (a |=> strong(b)), reached from sample 0";
    let part = "@(c) (a |=> strong(b)), asked from sample 0: held so far";
    let matched = "at sample 0, and the next tick";
    awaits(
        "@(c) always (a |=> strong(b))",
        &[5, 0, 0],
        [reached, part, matched],
    );

    let whole = "the whole assertion, asked from sample 0: held so far";
    // a ticks at each sample, and c at none after sample 0
    let reached = "@(c) ((@(a) b[*1:$]) |=> strong(b)), reached from sample 0";
    let matched = "at samples 0 to 2, and the next tick";
    awaits(
        "@(c) ((@(a) b[*1:$]) |=> strong(b))",
        &[7, 3, 3],
        [reached, whole, matched],
    );
    // an empty match, before the first tick
    let reached = "@(c) (a[*0] |=> strong(b)), reached from sample 0";
    let matched = "without a sample, and the next tick";
    awaits(
        "@(c) (a[*0] |=> strong(b))",
        &[1],
        [reached, whole, matched],
    );
}

/// Where the left side has not matched, that is still what is told.
#[test]
fn what_has_not_matched_is_told_so() {
    let said = judged("a ##1 b |=> strong(c)", &[1]);
    for line in [
        "Never asked: a ##1 b |=> strong(c), reached from sample 0: its left side never matched from there.\n",
        "Decisive: the whole assertion, asked from sample 0: held so far, for its left side has not matched from there yet.\n",
    ] {
        assert!(said.contains(line), "{line}\n{said}");
    }
}

/// The decisive part and what comes after it, up to the files.
fn decisive(assertion: &str, samples: &[u64]) -> String {
    let said = judged(assertion, samples);
    let (said, _) = said.split_once("\nTable: ").unwrap();
    said.split_once("Decisive: ").unwrap().1.to_string()
}

/// s_eventually at level 2: from the first sample from which what it awaits holds as the record stands.
#[test]
fn what_has_come_and_may_be_broken_is_told() {
    for (assertion, samples, since) in [
        // broken from sample 0, and a at each sample from 1 on
        ("s_eventually always strong(a)", &[0, 1, 1][..], 1),
        // one a, and the second may come
        ("s_eventually weak(a[*2])", &[1], 0),
        // ticks at samples 1 and 2, a at the second
        ("@(c) s_eventually always strong(a)", &[1, 4, 5, 0], 2),
    ] {
        let expected = format!(
            "the whole assertion, asked from sample 0: held so far, for what it awaits holds from sample {since} as \
             the record stands; what comes next may break that.\n"
        );
        assert_eq!(decisive(assertion, samples), expected);
    }
}

/// s_until at level 3 is explained as until is.
#[test]
fn an_s_until_that_held_names_what_closed_it() {
    let came = "strong(b), asked from sample 2: matched at sample 2.\n";
    assert_eq!(decisive("strong(a) s_until strong(b)", &[1, 1, 2]), came);
    assert_eq!(decisive("strong(a) until strong(b)", &[1, 1, 2]), came);
    assert_eq!(
        decisive("not (strong(a) s_until strong(b))", &[1, 1, 2]),
        format!("{came}It stands under not, so that it broke the assertion.\n")
    );
    // b came at sample 1 already, and the left side of sample 0 has its second a at sample 2
    assert_eq!(
        decisive("strong(a ##2 a) s_until strong(b)", &[1, 2, 1]),
        "strong(a ##2 a), asked from sample 0: matched by samples 0 to 2.\n"
    );
}

/// A picture has a row for each implication, and records are judged by the hundred.
#[test]
fn pictures_and_many_records() {
    let folder = Folder::new();
    let (table, _) = made(&folder, "@(c) always (a |=> strong(b))");
    let records: Vec<String> = [[5, 0, 6], [5, 2, 4], [4, 4, 4]]
        .iter()
        .enumerate()
        .map(|(place, samples)| folder.file(format!("r{place}.svw"), record(samples)))
        .collect();
    let picture = folder.path("p.svg");
    for record in &records {
        let said = kit(["picture", &table, record, "-o", &picture]);
        assert_eq!(said.status, 0, "{said:?}");
        let drawn = std::fs::read_to_string(&picture).unwrap();
        assert_eq!(drawn.matches(r#"class="implication""#).count(), 1);
        assert!(drawn.contains(">@(c) a |=&gt;<"), "{drawn}");
    }
    let mut words = vec!["batch".to_string(), table, "--asked".to_string()];
    words.extend(records);
    let said = kit(words);
    assert_eq!(said.status, 1, "{said:?}");
    // the columns are as wide as the times in them
    let words: Vec<&str> = said.out.split_whitespace().collect();
    let words = words.join(" ");
    for line in [
        "broken, level 0 1 broken",
        "total 3 ",
        "never asked 1 of 3 judged: some |-> was never asked",
    ] {
        assert!(words.contains(line), "{line}\n{}", said.out);
    }
}

/// Refusal 6 says what is wrong with a fourth byte, and which version an operator needs.
#[test]
fn a_wrong_fourth_byte_is_told() {
    let folder = Folder::new();
    let shown = |version: u8, nodes: &[[u8; 4]]| {
        let mut bytes = vec![b'S', b'V', b'T', version, 0, nodes.len() as u8];
        bytes.extend(nodes.concat());
        let said = kit(["show", &folder.file("t.svt", bytes)]);
        assert_eq!(said.status, 3);
        said.out
    };
    let (a, letter) = ([1, 0, 0, 0], [16, 0, 0, 0]);
    let times = shown(3, &[a, letter, [23, 1, 0, 0x12]]);
    let found = "bad fourth byte: it is 18, which is 2 + 16 times 1, and the first number is at most the second\n";
    assert!(times.contains(found), "{times}");
    assert!(
        times.contains("\n>   2  op  23  x   1  y   0  [*2:1]\n"),
        "{times}"
    );
    let goto = shown(3, &[a, [25, 0, 0, 16]]);
    assert!(
        goto.contains("bad fourth byte: it is 16, and 15 is the most\n"),
        "{goto}"
    );
    let always = shown(3, &[a, letter, [32, 1, 0, 0], [44, 2, 0, 1]]);
    assert!(always.contains("fourth byte not 0: it is 1\n"), "{always}");
    assert!(always.contains("  always, fourth byte 1\n"), "{always}");
    let older = shown(2, &[a, letter, [23, 1, 0, 0x11]]);
    let found = "operator 23 ([*m:n]) needs version 3, and this table has version 2: with 3 in byte 3 it is known\n";
    assert!(older.contains(found), "{older}");
}

/// 9 is read on the expansion and names the node that was given.
#[test]
fn a_hollow_part_is_named() {
    let folder = Folder::new();
    let (_, said) = made(&folder, "b |-> strong(a[->0])");
    assert_eq!(said.status, 3);
    assert!(said.err.contains("refused 9 at 4"), "{}", said.err);
    assert!(said.err.contains("\n  strong(a[->0])\n"), "{}", said.err);
    assert_eq!(made(&folder, "a[*0] |=> strong(b)").1.status, 0);
    for (assertion, hollow) in [
        (
            "a[*0] #-# strong(b)",
            "the left side of #-# matches no stretch of one or more samples, whatever they are",
        ),
        // an empty match would do, and there is none: two matches that share a sample are not empty
        (
            "a[*0] ##0 a #=# strong(b)",
            "the left side of #=# matches no stretch of samples, whatever they are",
        ),
    ] {
        let (_, said) = made(&folder, assertion);
        let told = format!("\n  {assertion}\n{hollow}\n");
        assert!(said.err.ends_with(&told), "{}", said.err);
        let (text, file) = (folder.path("t.txt"), folder.file("r.svw", record(&[])));
        for command in ["judge", "batch", "show"] {
            let mut words = vec![command, text.as_str()];
            words.extend((command != "show").then_some(file.as_str()));
            let said = kit(words);
            let told = format!("\n{assertion}: {hollow}");
            assert!((said.out + &said.err).contains(&told), "{told}");
        }
    }
}
