//! Derived operators: their nodes, and what binds how tightly.
use super::*;
use crate::assertion::Operator;

/// Operator, x, y and fourth byte of each node of a text over the signals a to h.
fn nodes(text: &str) -> Vec<[u8; 4]> {
    let nodes = table(text).split_off(6);
    nodes.as_chunks().0.to_vec()
}

const A: [u8; 4] = [1, 0, 0, 0];
const B: [u8; 4] = [1, 1, 0, 0];
const LETTERS: [[u8; 4]; 4] = [A, B, [16, 0, 0, 0], [16, 1, 0, 0]];

/// A node over the letters a and b.
fn over_letters(node: [u8; 4]) -> Vec<[u8; 4]> {
    [&LETTERS[..], &[node]].concat()
}

#[test]
fn repetitions_have_their_numbers_in_the_fourth_byte() {
    let repeated = |fourth| vec![A, [16, 0, 0, 0], [23, 1, 0, fourth]];
    assert_eq!(nodes("a[*3]"), repeated(0x33));
    assert_eq!(nodes("a[*2:5]"), repeated(0x52));
    assert_eq!(nodes("a[ * 0 : 0 ]"), repeated(0));
    assert_eq!(nodes("a[*15]"), repeated(0xff));
    assert_eq!(nodes("a[->2]"), [A, [25, 0, 0, 2]]);
    assert_eq!(nodes("a[=0]"), [A, [26, 0, 0, 0]]);
    // the base's own
    assert_eq!(nodes("a[*0]")[2], [20, 1, 0, 0]);
    assert_eq!(nodes("a[*1:$]")[2], [21, 1, 0, 0]);
}

#[test]
fn delays_have_their_numbers_in_the_fourth_byte() {
    assert_eq!(nodes("a ##3 b"), over_letters([24, 2, 3, 0x33]));
    assert_eq!(nodes("a ##[1:4] b"), over_letters([24, 2, 3, 0x41]));
    assert_eq!(nodes("a ##[1:1] b"), over_letters([24, 2, 3, 0x11]));
    assert_eq!(nodes("a ##[0:0] b"), over_letters([24, 2, 3, 0]));
    // the base's own
    assert_eq!(nodes("a ##1 b"), over_letters([17, 2, 3, 0]));
    assert_eq!(nodes("a ##0 b"), over_letters([18, 2, 3, 0]));
}

#[test]
fn properties_have_their_operators() {
    for (word, operator) in [
        ("always", Operator::Always),
        ("s_eventually", Operator::Eventually),
        ("s_nexttime", Operator::StrongNexttime),
    ] {
        let wanted = [operator as u8, 2, 0, 0];
        assert_eq!(nodes(&format!("{word} strong(a)"))[3], wanted);
    }
    for (sign, operator) in [
        ("|=>", Operator::ImpliesNext),
        ("#-#", Operator::Followed),
        ("#=#", Operator::FollowedNext),
    ] {
        let wanted = [operator as u8, 2, 4, 0];
        assert_eq!(nodes(&format!("a {sign} strong(b)"))[5], wanted);
        assert_eq!(sign, operator.sign());
    }
    assert_eq!(nodes("strong(a) s_until strong(b)")[6], [46, 3, 5, 0]);
}

#[test]
fn each_binds_as_in_systemverilog() {
    for (text, reading) in [
        ("a ##2 b[*2] ##1 c", "(a ##2 (b[*2])) ##1 c"),
        ("a ##[1:2] b or c ##3 d", "(a ##[1:2] b) or (c ##3 d)"),
        ("a & b[->2]", ""),
        ("a[*2][*3]", "(a[*2])[*3]"),
        (
            "s_nexttime strong(a) and strong(b)",
            "(s_nexttime strong(a)) and strong(b)",
        ),
        (
            "not s_nexttime strong(a) or strong(b)",
            "(not (s_nexttime strong(a))) or strong(b)",
        ),
        (
            "strong(a) s_until strong(b) until strong(c)",
            "strong(a) s_until (strong(b) until strong(c))",
        ),
        (
            "strong(a) or strong(b) s_until strong(c)",
            "(strong(a) or strong(b)) s_until strong(c)",
        ),
        (
            "a |=> strong(b) s_until strong(c)",
            "a |=> (strong(b) s_until strong(c))",
        ),
        (
            "a #-# b |=> c #=# strong(d)",
            "a #-# (b |=> (c #=# strong(d)))",
        ),
        (
            "always a |=> strong(b) until strong(c)",
            "always (a |=> (strong(b) until strong(c)))",
        ),
        (
            "strong(a) and always strong(b) or strong(c)",
            "strong(a) and (always (strong(b) or strong(c)))",
        ),
        (
            "s_eventually @(c) strong(a) until strong(b)",
            "s_eventually (@(c) (strong(a) until strong(b)))",
        ),
        (
            "not always strong(a) until strong(b)",
            "not (always (strong(a) until strong(b)))",
        ),
    ] {
        match reading {
            // a repetition binds tighter than & and makes a sequence of b
            "" => assert!(
                mistake(text).2.starts_with("a boolean is due here"),
                "{text}"
            ),
            reading => assert_eq!(table(text), table(reading), "{text}"),
        }
    }
}

/// What makes a property has no place in a sequence.
#[test]
fn no_property_stands_in_a_sequence() {
    for (text, column, word) in [
        ("strong(always strong(a))", 8, "always"),
        ("strong(a |=> strong(b))", 10, "|=>"),
        ("s_eventually a |=> strong(a #-# strong(b))", 29, "#-#"),
        ("weak(a s_until b)", 8, "s_until"),
        ("(s_nexttime a) |-> strong(b)", 13, ""),
    ] {
        let (_, place, words) = mistake(text);
        assert_eq!(place, column, "{text}: {words}");
        let property = format!("`{word}` makes a property, and a sequence is due here");
        assert!(word.is_empty() || words.starts_with(&property), "{words}");
    }
}
