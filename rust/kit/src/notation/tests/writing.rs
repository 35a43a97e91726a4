use super::*;

fn shown(text: &str) -> String {
    let read = read(&declared(text)).unwrap();
    let text = write(&read.assertion, &Names::none());
    text.lines().last().unwrap().to_string()
}

#[test]
fn parentheses_stand_where_they_are_needed_or_help() {
    let cases = [
        ("((a) & (b)) | (!(c))", "s0 & s1 | !s2"),
        ("a & (b | c)", "s0 & (s1 | s2)"),
        ("a & (b & c)", "s0 & (s1 & s2)"),
        ("(!a)[*1:$]", "(!s0)[*1:$]"),
        ("(a & b)[*0]", "(s0 & s1)[*0]"),
        ("(a[*1:$])[*0]", "s0[*1:$][*0]"),
        ("(a ##1 b) ##0 (c or d)", "s0 ##1 s1 ##0 (s2 or s3)"),
        ("a ##1 (b ##1 c)", "s0 ##1 (s1 ##1 s2)"),
        (
            "(a or b) |-> (c |-> weak(d))",
            "(s0 or s1) |-> s2 |-> weak(s3)",
        ),
        (
            "(a |-> weak(b)) and (c |-> weak(d))",
            "(s0 |-> weak(s1)) and (s2 |-> weak(s3))",
        ),
        ("not (not weak(a))", "not not weak(s0)"),
        ("weak(a) and (not weak(b))", "weak(s0) and not weak(s1)"),
        (
            "(nexttime weak(a)) and weak(b)",
            "(nexttime weak(s0)) and weak(s1)",
        ),
        ("not weak(a) until weak(b)", "(not weak(s0)) until weak(s1)"),
        ("weak(a) until not weak(b)", "weak(s0) until not weak(s1)"),
        (
            "weak(a) and weak(b) until weak(c)",
            "(weak(s0) and weak(s1)) until weak(s2)",
        ),
        (
            "a |-> weak(b) until weak(c)",
            "s0 |-> (weak(s1) until weak(s2))",
        ),
        (
            "weak(a) until weak(b) until weak(c)",
            "weak(s0) until (weak(s1) until weak(s2))",
        ),
        ("@(c | d) a |-> weak(b)", "@(s2 | s3) (s0 |-> weak(s1))"),
        ("strong(@(c) a ##1 b)", "strong(@(s2) (s0 ##1 s1))"),
        ("@(c) a & b", "@(s2) (s0 & s1)"),
        ("@(c) nexttime weak(a)", "@(s2) nexttime weak(s0)"),
        ("a ##1 @(c) b", "s0 ##1 (@(s2) s1)"),
        ("strong(@(c) b)", "strong(@(s2) s1)"),
        ("not @(c) weak(a)", "not (@(s2) weak(s0))"),
        ("@(c) @(d) weak(a)", "@(s2) (@(s3) weak(s0))"),
        ("strong(1 ##1 0)", "strong(1 ##1 0)"),
    ];
    for (text, wanted) in cases {
        assert_eq!(shown(text), wanted, "{text}");
    }
}

#[test]
fn the_signals_line_has_all_names_and_then_the_signals_without_one() {
    let read = read("signals x=9 y=2 z\nstrong(z ##1 x)").unwrap();
    let text = |names: &Names| write(&read.assertion, names);
    assert_eq!(
        text(&read.names),
        "signals x=9 y=2 z=3\n\nstrong(z ##1 x)\n"
    );
    assert_eq!(
        text(&Names::none()),
        "signals s3=3 s9=9\n\nstrong(s3 ##1 s9)\n"
    );
    let mut names = Names::none();
    names.declare("s9", 4).unwrap();
    assert_eq!(
        text(&names),
        "signals s9=4 s3=3 s9_=9\n\nstrong(s3 ##1 s9_)\n"
    );
    let constant = super::read("strong(1)").unwrap();
    assert_eq!(write(&constant.assertion, &constant.names), "strong(1)\n");
}

#[test]
fn a_phrase_is_one_node_without_the_clock_above_it() {
    let text = declared("@(c) (strong(!a) until weak(b ##1 a))");
    let read = read(&text).unwrap();
    let phrases: Vec<String> = (0..read.assertion.nodes().len())
        .map(|index| phrase(&read.assertion, index, &read.names))
        .collect();
    let wanted = [
        "a",
        "!a",
        "b",
        "c",
        "!a",
        "strong(!a)",
        "b",
        "a",
        "b ##1 a",
        "weak(b ##1 a)",
        "strong(!a) until weak(b ##1 a)",
        "@(c) (strong(!a) until weak(b ##1 a))",
    ];
    assert_eq!(phrases, wanted);
}

#[test]
fn long_texts_are_broken_over_lines() {
    let long = vec!["strong(a ##1 b)"; 18].join(" and ");
    let read = read(&declared(&long)).unwrap();
    let text = write(&read.assertion, &read.names);
    assert!(
        text.lines().all(|line| line.chars().count() <= 100),
        "{text}"
    );
    assert_eq!(super::read(&text), Ok(read));
    let many: Vec<String> = (0..64).map(|n| format!("a_long_signal_name_{n}")).collect();
    let read = super::read(&format!("signals {}\nstrong({})", many.join(" "), many[63])).unwrap();
    let text = write(&read.assertion, &read.names);
    assert!(
        text.lines().all(|line| line.chars().count() <= 100),
        "{text}"
    );
    assert_eq!(super::read(&text), Ok(read));
}

/// x0 = a, then x_k+1 = (x_k & b) | (x_k & c), as far as 120 nodes reach: written out, the last
/// would have 2 to the 38 letters.
fn sharing() -> Assertion {
    let mut nodes = vec![[1, 0, 0], [1, 1, 0], [1, 2, 0]];
    for _ in 0..38 {
        let (last, new) = (nodes.len() as u8 - 1, nodes.len() as u8);
        let below = if last == 2 { 0 } else { last };
        nodes.extend([[3, below, 1], [3, below, 2], [4, new, new + 1]]);
    }
    let last = nodes.len() as u8 - 1;
    nodes.extend([[16, last, 0], [32, last + 1, 0]]);
    Assertion::of_table(&table_of(&nodes)).unwrap()
}

#[test]
fn booleans_that_share_and_share_again_get_names() {
    let whole = sharing();
    let text = write(&whole, &Names::none());
    assert!(text.len() < 10_000, "{text}");
    assert!(text.contains("\nlet b1 = "), "{text}");
    assert_eq!(read(&text).unwrap().assertion, whole.tidy());
    // names that are taken are left alone
    let mut names = Names::none();
    names.declare("b1", 0).unwrap();
    let text = write(&whole, &names);
    assert!(text.contains("\nlet b1_ = "), "{text}");
    assert_eq!(read(&text).unwrap().assertion, whole.tidy());
    // a phrase stays short, too
    let phrase = phrase(&whole, whole.root(), &Names::none());
    assert!(phrase.len() < 10_000 && phrase.contains(".."), "{phrase}");
}
