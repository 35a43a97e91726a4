//! The `|->` of an assertion with where they were reached and matched, worked out by hand clause by clause.
//! a, b, c are signals 0, 1, 2, so a sample of 1 has a, 2 has b, 4 has c, and 7 all three. Under a clock c
//! ticks.
use super::super::implications::implications;
use crate::names::Names;
use crate::notation;

/// Of each `|->` the samples from which it was reached and those at which its left side then matched.
fn listed(assertion: &str, samples: &[u64]) -> Vec<(Vec<usize>, Vec<usize>)> {
    let read = notation::read(&format!("signals a b c\n{assertion}")).unwrap();
    let listed = implications(&read.assertion.table(), &Names::none(), samples).unwrap();
    let listed = listed.into_iter();
    listed
        .map(|implication| {
            assert_eq!(implication.asked(), !implication.matched.is_empty());
            (implication.reached, implication.matched)
        })
        .collect()
}

/// Asserts where the one `|->` of an assertion was reached and matched.
fn one(assertion: &str, samples: &[u64], reached: &[usize], matched: &[usize]) {
    let expected = vec![(reached.to_vec(), matched.to_vec())];
    assert_eq!(
        listed(assertion, samples),
        expected,
        "{assertion} {samples:?}"
    );
}

#[test]
fn an_assertion_is_asked_at_the_first_sample() {
    one("a |-> weak(1)", &[1, 0], &[0], &[0]);
    // a match at a start that was never reached
    one("a |-> weak(1)", &[0, 1], &[0], &[]);
    // the end of the record is all there is
    one("a |-> weak(1)", &[], &[0], &[]);
}

#[test]
fn without_an_implication_nothing_is_listed() {
    assert_eq!(listed("strong(a) until strong(b)", &[1, 2]), []);
}

#[test]
fn not_and_or_and_clocks_pass_on_the_sample() {
    one("not (a |-> weak(1))", &[1], &[0], &[0]);
    for joined in ["and", "or"] {
        let both = format!("(a |-> weak(1)) {joined} (b |-> weak(1))");
        let expected = [(vec![0], vec![]), (vec![0], vec![0])];
        assert_eq!(listed(&both, &[2, 1]), expected);
    }
    // from sample 0 on the first tick is sample 1
    one("@(c) (a |-> weak(1))", &[1, 5], &[0], &[1]);
    one("@(c) (a |-> weak(1))", &[1, 4], &[0], &[]);
    one("@(c) (a |-> weak(1))", &[1, 1], &[0], &[]);
}

#[test]
fn each_match_of_the_left_side_reaches_the_right() {
    // from sample 0 a matches once, twice and three times; of samples 0 to 2 only 1 has b, and 3 has it in
    // vain
    let nested = "a[*1:$] |-> (b |-> weak(1))";
    let expected = [(vec![0, 1, 2], vec![1]), (vec![0], vec![0, 1, 2])];
    assert_eq!(listed(nested, &[1, 3, 1, 2]), expected);
    // without a match the inner one is never reached
    assert_eq!(listed(nested, &[2, 3])[0], (vec![], vec![]));
}

#[test]
fn an_empty_match_asks_nothing() {
    one("(a[*0] or a ##1 a) |-> weak(1)", &[1, 1], &[0], &[1]);
    one("(a[*0] or a ##1 a) |-> weak(1)", &[1, 0], &[0], &[]);
}

#[test]
fn nexttime_reaches_the_next_sample_or_the_end() {
    one("nexttime (a |-> weak(1))", &[0, 1], &[1], &[1]);
    one("nexttime (a |-> weak(1))", &[1], &[1], &[]);
    one("nexttime (a |-> weak(1))", &[], &[], &[]);
    // the first a leads to the end, where no b can be
    let nested = "a |-> nexttime (b |-> weak(1))";
    let expected = [(vec![1], vec![]), (vec![0], vec![0])];
    assert_eq!(listed(nested, &[3]), expected);
}

#[test]
fn nexttime_under_a_clock_reaches_the_second_tick() {
    let next = "@(c) nexttime (a |-> weak(1))";
    one(next, &[1, 1], &[], &[]);
    one(next, &[5, 1], &[], &[]);
    one(next, &[4, 1, 5], &[2], &[2]);
    // the first tick need not be the first sample, and the third is not asked
    one(next, &[1, 5, 1, 4, 5], &[3], &[]);
}

#[test]
fn until_reaches_samples_as_long_as_its_left_side_holds() {
    // no a at sample 0; a with b at 1; a without b at 2, where the left side no longer holds
    let always = "(a |-> strong(b)) until strong(0)";
    one(always, &[0, 3, 1, 3], &[0, 1, 2], &[1, 2]);
    // held to the end, which is no position of until
    one(always, &[0, 3, 0], &[0, 1, 2], &[1]);
    one(always, &[], &[], &[]);
}

#[test]
fn until_reaches_no_sample_after_its_right_side_holds() {
    // c at sample 1: both sides are asked there and neither at 2
    one("(a |-> weak(1)) until strong(c)", &[1, 4, 1], &[0, 1], &[0]);
    // the right side holds at sample 2, where there is no a
    let right = "strong(b) until (a |-> strong(c))";
    one(right, &[3, 3, 2, 3], &[0, 1, 2], &[0, 1]);
    // b fails at sample 1, so that 2 is not reached
    one(right, &[3, 1, 3], &[0, 1], &[0, 1]);
}

#[test]
fn until_under_a_clock_reaches_ticks() {
    let always = "@(c) ((a |-> strong(b)) until strong(0))";
    // ticks at samples 1 and 3; the a of samples 0 and 2 is seen at no tick
    one(always, &[1, 7, 1, 4], &[1, 3], &[1]);
    one(always, &[1, 3], &[], &[]);
    one(always, &[1, 5], &[1], &[1]);
    // a without b at the tick of sample 1: the left side does not hold there, and the tick of 2 is not asked
    one(always, &[0, 5, 7], &[1], &[1]);
}

#[test]
fn an_inner_until_is_reached_from_several_samples() {
    // c at samples 0 and 3 asks `until` from there on; the a without b at 1 ends the first
    let always = "(c |-> ((a |-> strong(b)) until strong(0))) until strong(0)";
    let samples = [4, 1, 0, 4, 3];
    // the outer left side is broken at sample 0 already, so nothing later is asked
    let expected = [(vec![0, 1], vec![1]), (vec![0], vec![0])];
    assert_eq!(listed(always, &samples), expected);
    // with every a answered, c asks from 0 and from 3 on, and together all samples
    let samples = [4, 3, 0, 4, 3];
    let expected = [
        (vec![0, 1, 2, 3, 4], vec![1, 4]),
        (vec![0, 1, 2, 3, 4], vec![0, 3]),
    ];
    assert_eq!(listed(always, &samples), expected);
}

#[test]
fn a_left_side_that_rises_goes_by_the_sample_before() {
    let rising = "(rose(a) |-> weak(1)) until strong(0)";
    one(rising, &[1, 1, 0, 1], &[0, 1, 2, 3], &[0, 3]);
}

#[test]
fn the_longest_record_is_listed_to_its_last_sample() {
    let all: Vec<usize> = (0..63).collect();
    one("(a |-> weak(1)) until strong(0)", &[1; 63], &all, &all);
    let nexttimes = format!("{}(a |-> weak(1))", "nexttime ".repeat(63));
    one(&nexttimes, &[1; 63], &[63], &[]);
}

#[test]
fn the_texts_are_those_of_the_node_and_its_left_side() {
    let read =
        notation::read("signals a b c\n@(c) ((a ##1 b |-> weak(a)) until strong(0))").unwrap();
    let table = read.assertion.table();
    let listed = implications(&table, &read.names, &[5, 6]).unwrap();
    let [implication] = &listed[..] else {
        panic!("{listed:?}");
    };
    assert_eq!(implication.part, "@(c) (a ##1 b |-> weak(a))");
    assert_eq!(implication.left, "@(c) (a ##1 b)");
    // a, b, 0, c; then letters 4 and 5, ##1, letter, weak, |->
    assert_eq!(implication.node, 9);
}
