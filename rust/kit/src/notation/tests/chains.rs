//! Assertions as people write them who know SystemVerilog, and where the messages lead them: after each mistake
//! they write what its hint says, and in the end the text is accepted.
use super::following::{accepted, followed};
use super::*;

/// An assertion, and the text after each hint; the last is accepted.
const CHAINS: [(&str, &[&str]); 60] = [
    (
        "assert property (@(posedge c) disable iff (d) a |-> ##[1:3] b);",
        &[
            "@(posedge c) always (disable iff (d) a |-> ##[1:3] b)",
            "@(rose(c)) always (disable iff (d) a |-> ##[1:3] b)",
            "@(rose(c)) always (a |-> ##[1:3] b)",
            "@(rose(c)) always (a |-> strong(1 ##[1:3] b))",
        ],
    ),
    (
        "assert property (a |-> b) else $error(\"late\");",
        &["always (a |-> b)", "always (a |-> strong(b))"],
    ),
    (
        "assert property (always a |=> b)",
        &["always a |=> b", "always a |=> strong(b)"],
    ),
    (
        "check: assert property (a |-> strong(b));",
        &["always (a |-> strong(b))"],
    ),
    ("(a |-> strong(b)) else $fatal;", &["(a |-> strong(b))"]),
    ("(a |-> strong(b)) else begin", &["(a |-> strong(b))"]),
    (
        "(a |-> strong(b)) $display(\"seen\")",
        &["(a |-> strong(b))"],
    ),
    ("a |-> b", &["a |-> strong(b)"]),
    ("a |=> ##2 b", &["a |=> strong(1 ##2 b)"]),
    ("a |-> ##2 strong(b)", &["a |-> strong(1 ##2 b)"]),
    ("a |-> ##2 weak(b or c)", &["a |-> weak(1 ##2 (b or c))"]),
    (
        "a |-> ##2 always b",
        &[
            "a |-> ##2 always strong(b)",
            "a |-> (1 ##2 1 #-# always strong(b))",
        ],
    ),
    (
        "a |-> ##2 (not strong(b))",
        &["a |-> (1 ##2 1 #-# (not strong(b)))"],
    ),
    (
        "$rose(a) |-> ##[1:$] b",
        &["rose(a) |-> ##[1:$] b", "rose(a) |-> strong(1[*1:$] ##1 b)"],
    ),
    (
        "a |-> ##[2:8] b ##1 c",
        &["a |-> strong(1[*2] ##1 (1[*0] or 1)[*6] ##1 b ##1 c)"],
    ),
    ("a |-> ##[0:2] b", &["a |-> strong(1[*0:2] ##1 b)"]),
    ("a |-> ##0 b", &["a |-> strong(b)"]),
    ("a |-> (##1 b)", &["a |-> (strong(1 ##1 b))"]),
    (
        "a |-> ##1 b or ##2 c",
        &[
            "a |-> strong(1 ##1 b) or ##2 c",
            "a |-> strong(1 ##1 b) or strong(1 ##2 c)",
        ],
    ),
    (
        "a |-> ##1 b and (c |-> strong(d))",
        &["a |-> strong(1 ##1 b) and (c |-> strong(d))"],
    ),
    (
        "always (##1 a or b |-> strong(c))",
        &["always (1 ##1 a or b |-> strong(c))"],
    ),
    (
        "always ##1 a |-> strong(b)",
        &["always 1 ##1 a |-> strong(b)"],
    ),
    ("a |-> b[*3]", &["a |-> strong(b[*3])"]),
    ("a |-> b ##1 c", &["a |-> strong(b ##1 c)"]),
    ("a |-> (b ##1 c)", &["a |-> strong(b ##1 c)"]),
    ("(a ##1 b) |-> c", &["(a ##1 b) |-> strong(c)"]),
    ("a |-> s_eventually b", &["a |-> s_eventually strong(b)"]),
    (
        "a |-> s_eventually[1:4] b",
        &["a |-> (1 ##[1:4] 1 #-# strong(b))"],
    ),
    (
        "a |-> b[->2:4]",
        &[
            "a |-> (b[->2] ##1 (b[*0] or ((!b)[*0] or (!b)[*1:$]) ##1 b)[*2])",
            "a |-> strong(b[->2] ##1 (b[*0] or ((!b)[*0] or (!b)[*1:$]) ##1 b)[*2])",
        ],
    ),
    (
        "a[*2:$] |-> b",
        &["(a ##1 a[*1:$]) |-> b", "(a ##1 a[*1:$]) |-> strong(b)"],
    ),
    (
        "a |-> b ##[2:$] c",
        &[
            "a |-> (b ##1 1[*1:$] ##1 c)",
            "a |-> strong(b ##1 1[*1:$] ##1 c)",
        ],
    ),
    (
        "strong(a ##[*] b)",
        &["strong(((a ##0 b) or (a ##1 (1[*0] or 1[*1:$]) ##1 b)))"],
    ),
    (
        "strong(a ##[+] b)",
        &["strong((a ##1 (1[*0] or 1[*1:$]) ##1 b))"],
    ),
    ("strong(a ##20 b)", &["strong(a ##15 1 ##5 b)"]),
    (
        "strong(a[*0:$] ##1 b)",
        &["strong((a[*0] or a[*1:$]) ##1 b)"],
    ),
    ("not a", &["strong(!a)"]),
    ("c |-> not (a | b)", &["c |-> strong(!(a | b))"]),
    ("not (a ##1 b)", &["not strong(a ##1 b)"]),
    ("not a |-> strong(b)", &["!a |-> strong(b)"]),
    ("a && b |-> c", &["a & b |-> c", "a & b |-> strong(c)"]),
    ("!a || b", &["!a | b"]),
    (
        "if (a) b else c",
        &["((a |-> strong(b)) and (!a |-> strong(c)))"],
    ),
    (
        "if (a) strong(b) else $error(\"no\")",
        &["(a |-> strong(b)) else $error(\"no\")", "(a |-> strong(b))"],
    ),
    (
        "a |-> if (b | c) strong(d)",
        &["a |-> (b | c |-> strong(d))"],
    ),
    (
        "a until_with b",
        &["strong(a) until (strong(a) and strong(b))"],
    ),
    (
        "a until b",
        &["strong(a) until b", "strong(a) until strong(b)"],
    ),
    ("a == 1'b1 |-> strong(b)", &["a |-> strong(b)"]),
    (
        "a |-> b == 0 ##1 c != 1",
        &[
            "a |-> !b ##1 c != 1",
            "a |-> !b ##1 !c",
            "a |-> strong(!b ##1 !c)",
        ],
    ),
    ("strong(1'b1 ##1 a)", &["strong(1 ##1 a)"]),
    ("a -> b", &["(!a | b)"]),
    ("a -> strong(b)", &["a |-> strong(b)"]),
    (
        "a ##1 $past(b) |-> $stable(c)",
        &[
            "a ##1 (fell(b) | b & !rose(b)) |-> $stable(c)",
            "a ##1 (fell(b) | b & !rose(b)) |-> !(rose(c) | fell(c))",
            "a ##1 (fell(b) | b & !rose(b)) |-> strong(!(rose(c) | fell(c)))",
        ],
    ),
    ("$past(a, 2) |-> strong(b)", &["a ##2 1 |-> strong(b)"]),
    ("nexttime[2] b", &["(1 ##2 1 |-> strong(b))"]),
    (
        "a |-> always[0:3] b",
        &["a |-> (1 ##[0:3] 1 |-> strong(b))"],
    ),
    ("strong(##2 b)", &["strong(1 ##2 b)"]),
    ("a and b", &["strong(a & b)"]),
    ("a | b and c |-> strong(d)", &["(a | b) & c |-> strong(d)"]),
    (
        "a ##1 b and c",
        &["strong(a ##1 b) and c", "strong(a ##1 b) and strong(c)"],
    ),
    ("a |-> never b", &["a |-> always not strong(b)"]),
];

/// A hint that has words alone is followed by hand, to what the chain says.
fn next(text: &str, step: &str) {
    let (.., words) = mistake(text);
    let proposes = words.contains("is written `") || words.contains(" write `");
    match followed(text) {
        Some(fed) if proposes => assert_eq!(fed, step, "{words}"),
        _ => assert!(!proposes, "{text}: {words}"),
    }
}

#[test]
fn each_hint_leads_on_and_the_last_to_an_accepted_text() {
    for (text, steps) in CHAINS {
        let mut text = text;
        for step in steps {
            next(text, step);
            text = step;
        }
        accepted(text);
    }
}

/// What the notation has no form for is said to be so, and no form is proposed.
#[test]
fn what_has_no_form_is_told_in_words() {
    let absent = "this operator is not part of the notation: kit table --help lists those that are, and docs/PATTERNS.md has what \
                  is often asked, as that one holds until another comes";
    for (text, words) in [
        ("a |-> b throughout c", absent),
        ("a |-> strong(b within c)", absent),
        ("strong(a intersect b)", absent),
        ("first_match(a ##1 b) |-> strong(c)", absent),
        ("$onehot(a) |-> strong(b)", "functions are not part of the notation, but for `rose(a)` and `fell(a)` of a signal, which stand without $"),
        ("a[3] |-> strong(b)", "a repetition such as `R[*3]` was expected: a signal has one bit, so each bit of a bus is a signal of its own"),
        ("a |-> ##99 b", "`##99 b` is written out to more than the 120 nodes of a table"),
        ("sequence s; a ##1 b; endsequence", "the assertion stands alone, without `assert property (..);`, a name or an action block around it, and is asked at the first sample only: `always P` asks P at every one"),
    ] {
        assert_eq!(mistake(text).2, words, "{text}");
    }
}

/// `else` belongs to an action block where a task, a block or nothing follows, and to `if` otherwise.
#[test]
fn an_action_block_gets_no_advice_about_if() {
    let action = "action blocks are not part of the notation and are left out: the text ends with the assertion";
    for text in [
        "(a |-> strong(b)) else $error(\"late\");",
        "strong(a) else $fatal(1);",
        "strong(a) else $display;",
        "strong(a) else begin",
        "strong(a) else;",
        "strong(a) else",
        "strong(a) $error(\"late\")",
    ] {
        assert_eq!(mistake(text).2, action, "{text}");
    }
    let other = "`if (b) P else Q` is written `((b |-> P) and (!(b) |-> Q))`";
    assert_eq!(
        mistake("(a |-> strong(b)) else strong(c)"),
        (2, 19, other.to_string())
    );
}

/// A name that begins as always does is a name.
#[test]
fn what_is_asserted_gets_always_once() {
    for (inner, written) in [
        ("always_on |-> a", "always (always_on |-> a)"),
        ("always (a |-> b)", "always (a |-> b)"),
        ("(a |-> b)", "always (a |-> b)"),
        ("@(c) (a) |-> (b)", "@(c) always ((a) |-> (b))"),
        ("@(c) always a |-> b", "@(c) always a |-> b"),
    ] {
        let (.., words) = mistake(&format!("assert property ({inner});"));
        assert!(
            words.contains(&format!(": write `{written}`, where")),
            "{words}"
        );
    }
}

/// A part that is long, has a comment in it or goes on on another line is not repeated.
#[test]
fn a_part_that_is_not_repeated_is_told_by_its_letter() {
    let long = format!("({}a)", "a | ".repeat(30));
    assert_eq!(
        mistake(&format!("{long}[*2:$]")).2,
        "`R[*2:$]` is written `(R ##1 R[*1:$])`"
    );
    // nor is strong, which is put around a part that is
    assert_eq!(
        mistake(&format!("nexttime[2] {long}")).2,
        "`nexttime[2] P` is written `(1 ##2 1 |-> P)`"
    );
    for text in ["a |-> (b\n##1 c)", "a |-> (b // it comes\n##1 c)"] {
        let (.., words) = mistake(text);
        assert!(
            words.contains(": write `strong(..)` or `weak(..)`: strong"),
            "{words}"
        );
    }
}
