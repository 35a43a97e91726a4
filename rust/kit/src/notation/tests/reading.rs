use super::*;
use xistomar::{Judge, Level};

#[test]
fn every_operator_has_its_node() {
    let cases: [(&str, &[[u8; 3]]); 21] = [
        ("0", &[[0, 0, 0], [16, 0, 0]]),
        ("1", &[[0, 1, 0], [16, 0, 0]]),
        ("c", &[[1, 2, 0], [16, 0, 0]]),
        ("!a", &[[1, 0, 0], [2, 0, 0], [16, 1, 0]]),
        ("a & b", &[[1, 0, 0], [1, 1, 0], [3, 0, 1], [16, 2, 0]]),
        ("a | b", &[[1, 0, 0], [1, 1, 0], [4, 0, 1], [16, 2, 0]]),
        (
            "a ##1 b",
            &[[1, 0, 0], [1, 1, 0], [16, 0, 0], [16, 1, 0], [17, 2, 3]],
        ),
        (
            "a ##0 b",
            &[[1, 0, 0], [1, 1, 0], [16, 0, 0], [16, 1, 0], [18, 2, 3]],
        ),
        (
            "a or b",
            &[[1, 0, 0], [1, 1, 0], [16, 0, 0], [16, 1, 0], [19, 2, 3]],
        ),
        ("a[*0]", &[[1, 0, 0], [16, 0, 0], [20, 1, 0]]),
        ("a[*1:$]", &[[1, 0, 0], [16, 0, 0], [21, 1, 0]]),
        // of a clock node the operand comes before the condition
        ("@(c) a", &[[1, 0, 0], [1, 2, 0], [16, 0, 0], [22, 1, 2]]),
        ("strong(a)", &[[1, 0, 0], [16, 0, 0], [32, 1, 0]]),
        ("weak(a)", &[[1, 0, 0], [16, 0, 0], [33, 1, 0]]),
        (
            "not weak(a)",
            &[[1, 0, 0], [16, 0, 0], [33, 1, 0], [34, 2, 0]],
        ),
        (
            "strong(a) or weak(a)",
            &[
                [1, 0, 0],
                [16, 0, 0],
                [32, 1, 0],
                [16, 0, 0],
                [33, 3, 0],
                [35, 2, 4],
            ],
        ),
        (
            "strong(a) and weak(a)",
            &[
                [1, 0, 0],
                [16, 0, 0],
                [32, 1, 0],
                [16, 0, 0],
                [33, 3, 0],
                [36, 2, 4],
            ],
        ),
        (
            "a |-> weak(a)",
            &[[1, 0, 0], [16, 0, 0], [16, 0, 0], [33, 2, 0], [37, 1, 3]],
        ),
        (
            "nexttime weak(a)",
            &[[1, 0, 0], [16, 0, 0], [33, 1, 0], [38, 2, 0]],
        ),
        (
            "strong(a) until weak(a)",
            &[
                [1, 0, 0],
                [16, 0, 0],
                [32, 1, 0],
                [16, 0, 0],
                [33, 3, 0],
                [39, 2, 4],
            ],
        ),
        (
            "@(c) weak(a)",
            &[[1, 0, 0], [1, 2, 0], [16, 0, 0], [33, 2, 0], [40, 1, 3]],
        ),
    ];
    for (text, nodes) in cases {
        assert_eq!(table(text), table_of(nodes), "{text}");
    }
}

#[test]
fn operators_bind_as_the_page_of_the_notation_says() {
    let same = [
        ("!a & b", "(!a) & b"),
        ("!!a", "!(!a)"),
        ("a | b & c", "a | (b & c)"),
        ("a & b | c", "(a & b) | c"),
        ("a & b & c", "(a & b) & c"),
        ("a | b | c", "(a | b) | c"),
        ("a[*1:$][*0]", "(a[*1:$])[*0]"),
        ("a | b ##1 c", "(a | b) ##1 c"),
        ("a ##1 b[*1:$]", "a ##1 (b[*1:$])"),
        ("a ##1 b ##0 c", "(a ##1 b) ##0 c"),
        ("a ##0 b ##1 c", "(a ##0 b) ##1 c"),
        ("a or b ##1 c", "a or (b ##1 c)"),
        ("a or b or c", "(a or b) or c"),
        ("a ##1 b |-> weak(c)", "(a ##1 b) |-> weak(c)"),
        ("a or b |-> weak(c)", "(a or b) |-> weak(c)"),
        ("a |-> b |-> weak(c)", "a |-> (b |-> weak(c))"),
        ("not weak(a) and weak(b)", "(not weak(a)) and weak(b)"),
        (
            "nexttime weak(a) or weak(b)",
            "(nexttime weak(a)) or weak(b)",
        ),
        ("not nexttime not weak(a)", "not (nexttime (not weak(a)))"),
        ("weak(a) and not weak(b)", "weak(a) and (not weak(b))"),
        (
            "weak(a) and weak(b) or weak(c)",
            "(weak(a) and weak(b)) or weak(c)",
        ),
        (
            "weak(a) or weak(b) and weak(c)",
            "weak(a) or (weak(b) and weak(c))",
        ),
        (
            "weak(a) or weak(b) until weak(c)",
            "(weak(a) or weak(b)) until weak(c)",
        ),
        ("not weak(a) until weak(b)", "(not weak(a)) until weak(b)"),
        (
            "weak(a) until nexttime weak(b)",
            "weak(a) until (nexttime weak(b))",
        ),
        (
            "weak(a) until weak(b) until weak(c)",
            "weak(a) until (weak(b) until weak(c))",
        ),
        (
            "a |-> weak(b) until weak(c)",
            "a |-> (weak(b) until weak(c))",
        ),
        ("a |-> weak(b) or weak(c)", "a |-> (weak(b) or weak(c))"),
        ("@(c) a |-> weak(b)", "@(c) (a |-> weak(b))"),
        ("@(c) a ##1 b", "@(c) (a ##1 b)"),
        ("a ##1 @(c) b or d", "a ##1 (@(c) (b or d))"),
        ("(a ##1 @(c) b) or d", "(a ##1 (@(c) b)) or d"),
        (
            "not @(c) weak(a) and weak(b)",
            "not (@(c) (weak(a) and weak(b)))",
        ),
        (
            "a |-> @(c) b |-> @(d) weak(a)",
            "a |-> (@(c) (b |-> (@(d) weak(a))))",
        ),
        ("strong(@(c) a ##1 b)", "strong((@(c) (a ##1 b)))"),
        ("a [ * 1 : $ ] ## 1\n\tb", "a[*1:$] ##1 b"),
        ("a//b\n##1 b // c", "a ##1 b"),
        // what an editor shows on a line of its own is no part of the comment before it
        ("a // b\r##1 b // c\r\n", "a ##1 b"),
        ("a##1b", "a ##1 b"),
    ];
    for (bare, full) in same {
        assert_eq!(table(bare), table(full), "{bare} and {full}");
    }
}

#[test]
fn parentheses_change_what_is_read() {
    let different = [
        ("!(a & b)", "!a & b"),
        ("a & (b | c)", "a & b | c"),
        ("a & (b & c)", "a & b & c"),
        ("a ##1 (b ##1 c)", "a ##1 b ##1 c"),
        ("(a or b) ##1 c", "a or b ##1 c"),
        ("(a ##1 b)[*1:$]", "a ##1 b[*1:$]"),
        ("not (weak(a) and weak(b))", "not weak(a) and weak(b)"),
        (
            "weak(a) and (weak(b) or weak(c))",
            "weak(a) and weak(b) or weak(c)",
        ),
        (
            "(weak(a) until weak(b)) until weak(c)",
            "weak(a) until weak(b) until weak(c)",
        ),
        (
            "(a |-> weak(b)) until weak(c)",
            "a |-> weak(b) until weak(c)",
        ),
        ("(@(c) weak(a)) and weak(b)", "@(c) weak(a) and weak(b)"),
        ("a or b", "a | b"),
        ("a ##1 b", "a ##0 b"),
        ("strong(a)", "weak(a)"),
    ];
    for (one, other) in different {
        assert_ne!(table(one), table(other), "{one} and {other}");
    }
}

#[test]
fn equal_booleans_are_one_node() {
    // a & b stands at three places, a at one more
    let shared = table("strong((a & b) ##1 (a & b) ##1 a) and @(a & b) weak(a)");
    let nodes = [
        [1, 0, 0],
        [1, 1, 0],
        [3, 0, 1],
        [16, 2, 0],
        [16, 2, 0],
        [17, 3, 4],
        [16, 0, 0],
        [17, 5, 6],
        [32, 7, 0],
        [16, 0, 0],
        [33, 9, 0],
        [40, 2, 10],
        [36, 8, 11],
    ];
    assert_eq!(shared, table_of(&nodes));
    // the operands of & and | keep their order
    assert_ne!(table("a & b"), table("b & a"));
}

/// The examples of docs/FORMAT.md, with a, b, c signals 0, 1, 2.
#[test]
fn the_pages_bench_examples_have_their_levels() {
    let examples: [(&str, &[u64], u8); 11] = [
        ("strong(a ##1 b)", &[1], 1),
        ("weak(a ##1 b)", &[1], 2),
        ("strong(a ##1 b)", &[1, 2], 3),
        ("weak(a ##1 b)", &[1, 1], 0),
        ("a |-> nexttime strong(b)", &[1], 1),
        ("strong(a) until strong(b)", &[1, 1], 2),
        ("strong(a) until strong(b)", &[1, 0], 0),
        ("not strong(a)", &[], 2),
        ("not weak(a)", &[], 1),
        ("@(c) strong(a ##1 b)", &[1, 5, 2, 6], 3),
        ("@(c) strong(a ##1 b)", &[5, 2], 1),
    ];
    let mut judge = Judge::new();
    for (text, samples, level) in examples {
        let judged = judge.judge(&table(text), samples).unwrap();
        assert_eq!(judged.level.number(), level, "{text} on {samples:?}");
    }
    // P12
    let ends = judge.match_ends(&table("a[*1:$]"), &[1, 1, 2], 0).unwrap();
    assert_eq!(ends.mask, 6);
    // and refusal 9, which is the check's
    let hollow = table("strong(a[*0])");
    assert_eq!(xistomar::check(&hollow).unwrap_err().number(), 9);
}

#[test]
fn a_sequence_may_be_the_root() {
    let mut judge = Judge::new();
    for text in ["a", "a ##1 b", "@(c) a", "a or b", "(a)[*0]"] {
        let refusal = judge.judge(&table(text), &[]).unwrap_err();
        assert_eq!(refusal.number(), 12, "{text}");
    }
    let judged = judge.judge(&table("strong(a)"), &[1]).unwrap();
    assert_eq!(judged.level, Level::Strong);
}
