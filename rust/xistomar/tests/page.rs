//! The examples of docs/FORMAT.md by both engines, each refusal once, and what each call leaves in what it is lent.
mod files;
mod tables;

use files::{judged, level, refused};
use tables::{clocked_letters, over_a, repeated_a, strong_a, table};
use xistomar::{Judge, Level};

/// A record of these samples.
fn record(samples: &[u64]) -> Vec<u8> {
    files::record(1, samples)
}

/// Signals a and b and a letter for each: nodes 0 to 3. More nodes follow.
fn letters(more: &[[u8; 3]]) -> Vec<u8> {
    let first = [[1, 0, 0], [1, 1, 0], [16, 0, 0], [16, 1, 0]];
    table(&[&first, more].concat())
}

/// a ##1 b under strong (32) or weak (33).
fn a_then_b(operator: u8) -> Vec<u8> {
    letters(&[[17, 2, 3], [operator, 4, 0]])
}

#[test]
fn p1_to_p4_sequences() {
    assert_eq!(level(&a_then_b(32), &[1]), Level::Weak);
    assert_eq!(level(&a_then_b(33), &[1]), Level::Neutral);
    assert_eq!(level(&a_then_b(32), &[1, 2]), Level::Strong);
    assert_eq!(level(&a_then_b(33), &[1, 1]), Level::Broken);
}

#[test]
fn p5_to_p9_properties() {
    let implies = letters(&[[32, 3, 0], [38, 4, 0], [37, 2, 5]]);
    assert_eq!(level(&implies, &[1]), Level::Weak);
    let until = letters(&[[32, 2, 0], [32, 3, 0], [39, 4, 5]]);
    assert_eq!(level(&until, &[1, 1]), Level::Neutral);
    assert_eq!(level(&until, &[1, 0]), Level::Broken);
    assert_eq!(
        level(&over_a(&[[32, 1, 0], [34, 2, 0]]), &[]),
        Level::Neutral
    );
    assert_eq!(level(&over_a(&[[33, 1, 0], [34, 2, 0]]), &[]), Level::Weak);
}

#[test]
fn p10_and_p11_clocks() {
    let clocked = letters(&[[1, 2, 0], [17, 2, 3], [32, 5, 0], [40, 4, 6]]);
    assert_eq!(level(&clocked, &[1, 5, 2, 6]), Level::Strong);
    assert_eq!(level(&clocked, &[5, 2]), Level::Weak);
}

#[test]
fn p12_match_ends() {
    let mut judge = Judge::new();
    let ends = judge.match_ends(&repeated_a(), &[1, 1, 2], 0).unwrap();
    assert_eq!((ends.mask, ends.top), (6, false));
    assert_eq!(ends.ends().collect::<Vec<_>>(), [1, 2]);
    let ends = judge.match_ends(&repeated_a(), &[1, 1, 2], 3).unwrap();
    assert_eq!((ends.mask, ends.top), (0, true));
}

/// The program's line for a table that is judged, by both engines.
fn line(table: &[u8], samples: &[u64]) -> String {
    judged(table, samples).to_string()
}

#[test]
fn an_implication_is_tested_where_it_is_asked() {
    // a |-> strong(b)
    let implies = letters(&[[32, 3, 0], [37, 2, 4]]);
    assert_eq!(line(&implies, &[0]), "level 3 tested no");
    assert_eq!(line(&implies, &[3]), "level 3 tested yes");
    assert_eq!(line(&implies, &[1]), "level 0 tested yes");
    // The match at sample 1 is at a start that is never reached.
    assert_eq!(line(&implies, &[2, 1]), "level 3 tested no");
    // a |-> (b |-> strong(a))
    let nested = letters(&[[16, 0, 0], [32, 4, 0], [37, 3, 5], [37, 2, 6]]);
    assert_eq!(line(&nested, &[1, 2]), "level 3 tested no");
    assert_eq!(line(&nested, &[3]), "level 3 tested yes");
}

#[test]
fn nexttime_is_tested_with_a_sample_or_a_second_tick() {
    // nexttime weak(a), which may be asked of the empty suffix
    let next = over_a(&[[33, 1, 0], [38, 2, 0]]);
    assert_eq!(line(&next, &[]), "level 2 tested no");
    assert_eq!(line(&next, &[1]), "level 2 tested yes");
    // @(a) nexttime weak(a)
    let clocked = over_a(&[[33, 1, 0], [38, 2, 0], [40, 0, 3]]);
    assert_eq!(line(&clocked, &[4]), "level 2 tested no");
    assert_eq!(line(&clocked, &[1, 0]), "level 2 tested no");
    assert_eq!(line(&clocked, &[1, 0, 1]), "level 3 tested yes");
}

#[test]
fn until_is_tested_at_a_position_that_it_comes_to() {
    // (a |-> weak(1)) until (a |-> weak(1)): the right side holds at sample 0, and ends it there
    let booleans = [[1, 0, 0], [0, 1, 0]];
    let left = [[16, 0, 0], [16, 1, 0], [33, 3, 0], [37, 2, 4]];
    let right = [[16, 0, 0], [16, 1, 0], [33, 7, 0], [37, 6, 8]];
    let until = table(&[&booleans[..], &left, &right, &[[39, 5, 9]]].concat());
    assert_eq!(line(&until, &[0, 1]), "level 3 tested no");
    assert_eq!(line(&until, &[1]), "level 3 tested yes");
    // not of both sides: the left side fails at sample 0, and ends it there
    let negated = [[34, 5, 0], [34, 9, 0], [39, 10, 11]];
    let until = table(&[&booleans[..], &left, &right, &negated].concat());
    assert_eq!(line(&until, &[0, 1]), "level 0 tested no");
    // @(a)(strong(a) until strong(a)): there is no tick to ask at
    let clocked = over_a(&[[32, 1, 0], [16, 0, 0], [32, 3, 0], [39, 2, 4], [40, 0, 5]]);
    assert_eq!(line(&clocked, &[0]), "level 2 tested no");
    assert_eq!(line(&clocked, &[0, 1]), "level 3 tested yes");
}

#[test]
fn strong_and_weak_are_tested_on_every_record() {
    for operator in [32, 33] {
        for samples in [&[][..], &[0], &[1], &[1, 2]] {
            assert!(line(&a_then_b(operator), samples).ends_with("tested yes"));
        }
    }
}

#[test]
fn the_rewritten_table_is_the_page_s() {
    let clocked = [[1, 0, 0], [1, 2, 0], [16, 0, 0], [32, 2, 0], [40, 1, 3]];
    let rewritten = table(&[
        [1, 0, 0],
        [1, 2, 0],
        [2, 1, 0],
        [3, 1, 0],
        [16, 2, 0],
        [20, 4, 0],
        [16, 2, 0],
        [21, 6, 0],
        [19, 5, 7],
        [16, 3, 0],
        [17, 8, 9],
        [32, 10, 0],
    ]);
    let mut out = [7; xistomar::TABLE_BYTES];
    assert_eq!(xistomar::rewrite(&table(&clocked), &mut out), Ok(12));
    assert_eq!(out[..54], rewritten);
    assert!(out[54..].iter().all(|byte| *byte == 7));
}

#[test]
fn a_record_is_read_in_order_and_later_words_stay() {
    let mut out = [7; 3];
    assert_eq!(xistomar::read(&record(&[1, u64::MAX]), &mut out), Ok(2));
    assert_eq!(out, [1, u64::MAX, 7]);
    assert_eq!(
        xistomar::samples(&record(&[1, u64::MAX])),
        Ok(vec![1, u64::MAX])
    );
    assert_eq!(xistomar::samples(&record(&[])), Ok(vec![]));
}

#[test]
fn the_rows_stay_in_the_workspace() {
    let mut workspace = [7; 3 * xistomar::SHARE + 1];
    xistomar::judge(&strong_a(), &[1], &mut workspace).unwrap();
    let mut rows = [0; 3 * xistomar::SHARE + 1];
    rows[0] = 1; // a, at sample 0
    rows[65] = 2; // the letter: sample 0 alone
    rows[65 + 64] = 2; // and one ⊤, from the end on
    rows[130..133].copy_from_slice(&[1, 3, 1]); // neutral, weak, strong of the two suffixes
    rows[195] = 7; // lent beyond the rows
    assert_eq!(workspace, rows);

    let mut judge = Judge::new();
    judge.judge(&strong_a(), &[1]).unwrap();
    assert_eq!(judge.workspace()[..195], rows[..195]);
}

#[test]
fn refusals_1_to_9_of_a_table() {
    let check = |bytes: &[u8]| refused(xistomar::check(bytes));
    let strong_a = strong_a();
    let with = |place: usize, byte: u8| {
        let mut bytes = strong_a.clone();
        bytes[place] = byte;
        bytes
    };
    assert_eq!(xistomar::check(&strong_a), Ok(()));
    assert_eq!(check(&[]), (1, 0));
    assert_eq!(check(&strong_a[..5]), (1, 0));
    assert_eq!(check(&with(2, b'W')), (2, 0));
    assert_eq!(check(&with(3, 0)), (3, 0));
    assert_eq!(check(&with(3, 4)), (3, 0));
    assert_eq!(check(&with(4, 1)), (3, 0));
    assert_eq!(check(&with(5, 0)), (4, 0));
    assert_eq!(check(&with(5, 121)), (4, 0));
    assert_eq!(check(&with(5, 2)), (5, 0));
    assert_eq!(check(&with(14, 99)), (6, 2));
    assert_eq!(check(&with(6, 5)), (6, 0));
    assert_eq!(check(&with(6, 6)), (6, 0));
    assert_eq!(
        check(&table(&[[1, 0, 0], [16, 0, 0], [16, 0, 0], [32, 2, 0]])),
        (7, 1)
    );
    assert_eq!(check(&table(&[[1, 0, 0], [1, 1, 0]])), (8, 0));
    assert_eq!(check(&over_a(&[[20, 1, 0], [32, 2, 0]])), (9, 3));
}

#[test]
fn refusals_1_to_5_of_a_record() {
    let read = |bytes: &[u8]| refused(xistomar::samples(bytes));
    let whole = record(&[1]);
    assert_eq!(read(&[]), (1, 0));
    assert_eq!(read(&whole[..5]), (1, 0));
    assert_eq!(read(&strong_a()), (2, 0));
    for version in [0, 2, 257] {
        assert_eq!(read(&files::record(version, &[1])), (3, 0));
    }
    assert_eq!(read(&whole[..13]), (5, 0));
}

#[test]
fn refusals_10_to_15_of_a_call() {
    let mut judge = Judge::new();
    let long = [0; 64];
    assert!(judge.judge(&strong_a(), &long[..63]).is_ok());
    assert_eq!(refused(judge.judge(&strong_a(), &long)), (10, 0));
    assert_eq!(refused(xistomar::samples(&record(&long))), (10, 0));
    assert_eq!(
        refused(xistomar::judge(&strong_a(), &[], &mut [0; 194])),
        (11, 0)
    );
    assert_eq!(refused(judge.judge(&repeated_a(), &[])), (12, 0));
    assert_eq!(refused(judge.match_ends(&strong_a(), &[], 0)), (12, 0));
    assert!(judge.judge(&clocked_letters(11), &[]).is_ok());
    assert_eq!(refused(judge.judge(&clocked_letters(12), &[])), (13, 0));
    assert_eq!(refused(judge.match_ends(&repeated_a(), &[1], 2)), (14, 0));
    assert_eq!(refused(xistomar::read(&record(&[1]), &mut [])), (15, 0));
    assert_eq!(
        refused(xistomar::rewrite(&strong_a(), &mut [0; 17])),
        (15, 0)
    );
}

#[test]
fn a_refused_call_changes_nothing_lent() {
    let mut words = [7; 194];
    refused(xistomar::judge(&strong_a(), &[1], &mut words));
    refused(xistomar::match_ends(&repeated_a(), &[1], 0, &mut words));
    refused(xistomar::read(&record(&[1])[..13], &mut words));
    assert_eq!(words, [7; 194]);
    let mut bytes = [7; 17];
    refused(xistomar::rewrite(&strong_a(), &mut bytes));
    assert_eq!(bytes, [7; 17]);
}

#[test]
fn the_constants_are_the_header_s() {
    let header = include_str!("../../../include/xistomar.h");
    let constants = [
        ("LONGEST", xistomar::LONGEST),
        ("SHARE", xistomar::SHARE),
        ("WORKSPACE", xistomar::WORKSPACE),
        ("TABLE_BYTES", xistomar::TABLE_BYTES),
        ("BROKEN", usize::from(Level::Broken.number())),
        ("WEAK", usize::from(Level::Weak.number())),
        ("NEUTRAL", usize::from(Level::Neutral.number())),
        ("STRONG", usize::from(Level::Strong.number())),
    ];
    for (name, value) in constants {
        let line = format!("XISTOMAR_{name} = {value}");
        let found = header.lines().any(|text| {
            let text = text.trim_start();
            text.starts_with(&format!("{line},")) || text.starts_with(&format!("{line} "))
        });
        assert!(found, "include/xistomar.h does not say {line}");
    }
}

/// The number of a node that a block of docs/FORMAT.md names: 1st, 2nd, .. of the block whose first is number
/// `at`, or c, b, P, Q by their new numbers.
fn named(word: &str, at: u8) -> u8 {
    match word {
        "b" => 0,
        "c" => 1,
        "P" => 11,
        "Q" => 21,
        _ => {
            let digits = word.trim_end_matches(|end: char| end.is_alphabetic());
            at + digits.parse::<u8>().unwrap() - 1
        }
    }
}

/// The bytes of a block of docs/FORMAT.md, as it is written there.
fn block(title: &str, at: u8) -> Vec<u8> {
    let page = include_str!("../../../docs/FORMAT.md");
    let row = format!("| {title} nodes | ");
    let row = page.lines().find_map(|line| line.strip_prefix(&row));
    let nodes = row.expect("the block").trim_end_matches(" |").split("; ");
    let bytes = |node: &str| {
        let node = node.replace('`', "");
        if let Some((left, right)) = node.split_once(" and ") {
            return [3, named(left, at), named(right, at), 0];
        }
        let (word, operands) = match node.split_once('(') {
            Some((word, operands)) => (word, operands.trim_end_matches(')')),
            None => node.split_once(' ').unwrap(),
        };
        let operator = match (word, operands) {
            ("not", "c") => 2,
            ("letter", _) => 16,
            ("##1", _) => 17,
            ("or", _) => 19,
            ("[*0]", _) => 20,
            ("[*1:$]", _) => 21,
            ("strong", _) => 32,
            ("not", _) => 34,
            ("and", _) => 36,
            ("nexttime", _) => 38,
            ("until", _) => 39,
            _ => panic!("{node}"),
        };
        let (x, y) = operands.split_once(", ").unwrap_or((operands, ""));
        let y = if y.is_empty() { 0 } else { named(y, at) };
        [operator, named(x, at), y, 0]
    };
    nodes.flat_map(bytes).collect()
}

/// b and c are the booleans 0 and 1. The letter's block is nodes 2 to 10 and P, strong of it, node 11; Q is
/// node 21 in the same way.
#[test]
fn the_blocks_of_rewriting_are_the_page_s() {
    let (letter, strong) = ([16, 0, 0], [32, 2, 0]);
    let rewritten = |nodes: &[[u8; 3]]| {
        let mut out = [0; 486];
        let count = xistomar::rewrite(&table(nodes), &mut out).unwrap();
        out[6..6 + 4 * count].to_vec()
    };
    let booleans = [[1, 0, 0], [1, 2, 0]];
    let one = rewritten(&[&booleans[..], &[letter, strong, [40, 1, 3]]].concat());
    let p = block("letter b, 9", 2);
    assert_eq!(one[8..44], p);
    assert_eq!(one[44..], [32, 10, 0, 0]);
    let next = [letter, strong, [38, 3, 0], [40, 1, 4]];
    let next = rewritten(&[&booleans[..], &next].concat());
    assert_eq!(next[48..], block("nexttime P, 14", 12));
    let until = [letter, strong, letter, [32, 4, 0], [39, 3, 5], [40, 1, 6]];
    let until = rewritten(&[&booleans[..], &until].concat());
    assert_eq!(until[8..44], p);
    assert_eq!(until[48..84], block("letter b, 9", 12));
    assert_eq!(until[88..], block("P until Q, 9", 22));
}

/// docs/FORMAT.md has a row for each call, with the order of its refusals, and the header says the same.
#[test]
fn the_orders_of_refusals_are_the_page_s() {
    let header = include_str!("../../../include/xistomar.h");
    let page = include_str!("../../../docs/FORMAT.md");
    let orders = [
        ("check", "xistomar_check", "1 to 9"),
        ("read", "xistomar_read", "1, 2, 3, 10, 5, 15"),
        ("expand", "xistomar_expand", "1 to 9, 13, 15"),
        ("rewrite", "xistomar_rewrite", "1 to 9, 13, 15"),
        ("judge", "xistomar_judge", "1 to 9, 12, 13, 10, 11"),
        ("plain", "xistomar_plain_judge", "1 to 9, 12, 13, 10"),
        ("ends", "xistomar_match_ends", "1 to 9, 12, 13, 10, 14, 11"),
    ];
    for (call, function, order) in orders {
        let row = |line: &str| {
            let cells: Vec<&str> = line.split(" | ").collect();
            cells.len() == 4 && cells[0] == format!("| {call}") && cells[2] == order
        };
        assert!(page.lines().any(row), "docs/FORMAT.md: no row of {call}");
        let (before, _) = header.split_once(&format!(" {function}(")).unwrap();
        let (_, comment) = before.rsplit_once("/*").unwrap();
        let says = [".", ";"].map(|end| format!("efusals {order}{end}"));
        assert!(
            says.iter().any(|words| comment.contains(words)),
            "include/xistomar.h: {function}"
        );
    }
}

#[test]
fn the_line_of_a_table_and_a_record() {
    let p1 = [a_then_b(32), record(&[1])].concat();
    assert_eq!(xistomar::line(&p1), "level 1 tested yes");
    assert_eq!(xistomar::line(&a_then_b(32)), "refused 1 at 0");
    // A table's refusal comes before its record's.
    let both = [over_a(&[[20, 1, 0], [32, 2, 0]]), record(&[0; 64])].concat();
    assert_eq!(xistomar::line(&both), "refused 9 at 3");
    let long = [a_then_b(32), record(&[0; 64])].concat();
    assert_eq!(xistomar::line(&long), "refused 10 at 0");
}
