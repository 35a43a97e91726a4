//! `rose(a)` and `fell(a)`: their nodes, the version of their tables, and what is no signal.
use super::*;
use xistomar::Judge;

#[test]
fn what_rises_and_falls_has_its_node_and_version_2() {
    let cases: [(&str, &[[u8; 3]]); 7] = [
        ("rose(c)", &[[5, 2, 0], [16, 0, 0]]),
        ("fell(c)", &[[6, 2, 0], [16, 0, 0]]),
        ("!rose(a)", &[[5, 0, 0], [2, 0, 0], [16, 1, 0]]),
        // each boolean once, and a signal is another boolean than its rise
        (
            "strong(rose(a) & a ##1 rose(a))",
            &[
                [5, 0, 0],
                [1, 0, 0],
                [3, 0, 1],
                [16, 2, 0],
                [16, 0, 0],
                [17, 3, 4],
                [32, 5, 0],
            ],
        ),
        (
            "@(rose(c)) strong(fell(a))",
            &[[6, 0, 0], [5, 2, 0], [16, 0, 0], [32, 2, 0], [40, 1, 3]],
        ),
        ("rose(a)[*1:$]", &[[5, 0, 0], [16, 0, 0], [21, 1, 0]]),
        (
            "let up = rose(h)\nup | fell(h)",
            &[[5, 7, 0], [6, 7, 0], [4, 0, 1], [16, 2, 0]],
        ),
    ];
    for (text, nodes) in cases {
        assert_eq!(table(text), table_2(nodes), "{text}");
    }
    // blanks may stand anywhere, and more parentheses around the signal
    for text in [
        "rose ( c )",
        "rose(\nc)",
        "rose((c))",
        "let x = c\nrose(x)",
        "let x = rose(c)\nx",
    ] {
        assert_eq!(table(text), table("rose(c)"), "{text}");
    }
}

#[test]
fn the_version_is_the_lowest_that_will_do() {
    let version = |text: &str| table(text)[3..5].to_vec();
    assert_eq!(version("strong(a ##1 b)"), [1, 0]);
    assert_eq!(version("strong(a ##1 rose(b))"), [2, 0]);
    // one that is not used is not in the table
    assert_eq!(version("let up = rose(a)\nstrong(a)"), [1, 0]);
    // the same nodes with version 2 are shown as the same text
    let nodes = [[1, 0, 0], [16, 0, 0], [32, 1, 0]];
    let shown = [table_of(&nodes), table_2(&nodes)].map(|table| {
        let assertion = Assertion::of_table(&table).unwrap();
        write(&assertion, &Names::of(&["ack"]))
    });
    assert_eq!(shown, ["signals ack=0\n\nstrong(ack)\n"; 2]);
}

#[test]
fn a_rise_is_written_with_the_signals_name() {
    let text = declared("@(fell(c)) (strong(!rose(a)) until weak((rose(b) & a)[*1:$]))");
    let read = read(&text).unwrap();
    let written = write(&read.assertion, &read.names);
    let line = "@(fell(c)) (strong(!rose(a)) until weak((rose(b) & a)[*1:$]))";
    assert_eq!(written.lines().last(), Some(line));
    // a signal that only rises is declared all the same
    let written = write(&read.assertion, &Names::none());
    assert!(written.starts_with("signals s0=0 s1=1 s2=2\n"), "{written}");
}

/// 118 signals that rise and no node for a signal: with one for each name the text would not be read.
#[test]
fn a_name_in_parentheses_takes_no_node() {
    let mut nodes: Vec<[u8; 3]> = (0..59).map(|signal| [5, signal, 0]).collect();
    nodes.extend((59..117u8).map(|node| [4, if node == 59 { 0 } else { node - 1 }, node - 58]));
    nodes.extend([[16, 116, 0], [20, 117, 0], [21, 118, 0]]);
    let given = table_2(&nodes);
    assert_eq!(nodes.len(), 120);
    let assertion = Assertion::of_table(&given).unwrap();
    let text = write(&assertion, &Names::none());
    let back = super::read(&text).unwrap().assertion.table();
    assert_eq!(back, assertion.tidy().table());
    assert_eq!(back.len(), 6 + 4 * 120);
}

#[test]
fn only_a_signal_rises_or_falls() {
    let rise = "only a signal can rise, and";
    let fall = "only a signal can fall, and";
    let cases = [
        (
            "rose(a & b)",
            6,
            format!("{rise} `a & b` is none: over two samples, `!(a & b) ##1 (a & b)` says that it becomes 1"),
        ),
        (
            "strong(fell(a | !b))",
            13,
            format!("{fall} `a | !b` is none: over two samples, `(a | !b) ##1 !(a | !b)` says that it becomes 0"),
        ),
        (
            "rose(fell(a))",
            6,
            format!("{rise} `fell(a)` is none: over two samples, `!(fell(a)) ##1 (fell(a))` says that it becomes 1"),
        ),
        ("rose(!a)", 6, format!("{rise} `!a` is none: write fell(a)")),
        ("fell(!a)", 6, format!("{fall} `!a` is none: write rose(a)")),
        ("rose(1)", 6, format!("{rise} `1` is a constant")),
        ("rose(a ##1 b)", 6, format!("{rise} `a ##1 b` is a sequence")),
        ("fell(strong(a))", 6, format!("{fall} `strong(a)` is a property")),
        ("let x = a & b\nrose(x)", 6, format!("{rise} `x` is none: over two samples, `!(x) ##1 (x)` says that it becomes 1")),
    ];
    for (text, column, words) in cases {
        let line = 1 + text.lines().count();
        assert_eq!(mistake(text), (line, column, words), "{text}");
    }
    // what the messages say to write is read
    for text in ["!(a & b) ##1 (a & b)", "(a | !b) ##1 !(a | !b)", "fell(a)"] {
        table(text);
    }
}

#[test]
fn a_rise_that_is_not_well_formed_is_shown_at_its_place() {
    let one = "takes one signal and nothing more: it goes by the sample before, under a clock too";
    let cases = [
        ("rose a", 6, "(a) after rose, where a is a signal, was expected, and here stands `a`".to_string()),
        ("strong(fell)", 12, "(a) after fell, where a is a signal, was expected, and here stands `)`".to_string()),
        ("rose", 5, "(a) after rose, where a is a signal, was expected, and the text ends here".to_string()),
        ("rose()", 6, "a boolean was expected, and here stands `)`".to_string()),
        ("rose(a", 7, "a closing parenthesis was expected, to match line 2, column 5".to_string()),
        ("rose(a b)", 8, "an operator, or a parenthesis to close that of line 2, column 5, was expected, and here stands `b`".to_string()),
        ("rose(a, @(posedge b))", 7, format!("rose {one}")),
        ("fell(a, b)", 7, format!("fell {one}")),
        ("rose(x)", 6, "x is not declared: a line with signals names each signal".to_string()),
        ("rose(3)", 6, "the constants are 0 and 1, and here stands `3`".to_string()),
        ("rose(a)(b)", 8, "an operator or the end of the text was expected, and here stands `(`".to_string()),
        ("strong(a)\nrose(b)", 1, "a text says one assertion, and here begins another: `(P) and (Q)` joins two properties".to_string()),
        ("Rose(a)", 1, "Rose is not declared: did you mean rose?".to_string()),
        ("rse(a)", 1, "rse is not declared: did you mean rose?".to_string()),
    ];
    for (text, column, words) in cases {
        let line = 1 + text.lines().count();
        assert_eq!(mistake(text), (line, column, words), "{text}");
    }
    // a declaration ends with its line
    let (line, column, words) = mistake("let x = rose(a\n)\nx");
    let expected = "a closing parenthesis was expected, to match line 2, column 13";
    assert_eq!((line, column, words.as_str()), (2, 15, expected));
}

#[test]
fn rose_and_fell_name_no_signal() {
    for word in ["rose", "fell"] {
        let words =
            format!("{word} is a word of the notation and names no signal: {word}_ would do");
        for text in [
            format!("signals {word}=3 a\nstrong(a)"),
            format!("signals a {word}=3\nstrong(a)"),
            format!("signals a {word} b\nstrong(a)"),
            format!("signals a, {word}\nstrong(a)"),
            format!("signals a {word}\nstrong(a)"),
            format!("signals a\nlet {word} = a\nstrong(a)"),
        ] {
            assert_eq!(read(&text).unwrap_err().words, words, "{text}");
        }
        // what the message says is read, and so are other names that only begin so
        for name in [
            format!("{word}_"),
            format!("{word}.x"),
            format!("{word}r"),
            word.to_uppercase(),
        ] {
            let text = format!("signals {name}=3\nstrong({word}({name}))");
            assert_eq!(read(&text).unwrap().assertion.table()[7], 3, "{text}");
        }
    }
}

/// Samples of a, b, c, signals 0, 1, 2, and levels by hand.
#[test]
fn texts_that_rise_and_fall_have_their_levels() {
    let examples: [(&str, &[u64], u8); 9] = [
        // before the first sample all was 0
        ("strong(rose(a))", &[1], 3),
        ("strong(rose(a))", &[0, 1], 0),
        ("strong(1 ##1 rose(a))", &[0, 1], 3),
        ("strong(1 ##1 rose(a))", &[1, 1], 0),
        ("weak(fell(a))", &[0], 0),
        ("strong(1 ##1 fell(a))", &[1, 0], 3),
        // b cannot rise twice in a row
        ("strong(rose(b) ##1 rose(b))", &[2, 2], 0),
        // the tick of sample 2 has a as at sample 1, which is no tick
        ("@(c) strong(1 ##1 rose(a))", &[4, 1, 5], 0),
        ("@(c) strong(1 ##1 rose(a))", &[5, 0, 5], 3),
    ];
    let mut judge = Judge::new();
    for (text, samples, level) in examples {
        let judged = judge.judge(&table(text), samples).unwrap();
        assert_eq!(judged.level.number(), level, "{text} on {samples:?}");
    }
}
