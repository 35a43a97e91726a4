//! Sides whose plain judge answers wrong are found out.
use super::found;
use crate::{library_answer, Side};
use second::{Answer, Case, Judgement, Verdict};

/// The library, but the plain judge's answer to a table and samples is changed.
fn changed(case: &Case, change: impl Fn(&[u8], &[u64], &mut Judgement)) -> Answer {
    let mut answer = library_answer(case);
    if let (Case::Plain { table, samples }, Answer::Plain(judged)) = (case, &mut answer) {
        change(table, samples, judged);
    }
    answer
}

/// A refusal with this number at node 0.
fn refused(number: u8) -> Judgement {
    Judgement {
        verdict: Verdict { number, node: 0 },
        level: 0,
        tested: false,
    }
}

/// The plain judge refuses with 13 as the judge does.
fn refuses_13(case: &Case) -> Answer {
    changed(case, |table, _, judged| {
        let rewriting = second::rewrite(table, &mut [0; 486]).verdict;
        if judged.verdict.number == 0 && rewriting.number == 13 {
            *judged = refused(13);
        }
    })
}

/// A long record is refused before a sequence root.
fn ten_before_twelve(case: &Case) -> Answer {
    changed(case, |_, samples, judged| {
        if judged.verdict.number == 12 && samples.len() > 63 {
            *judged = refused(10);
        }
    })
}

/// Everything is tested.
fn always_tested(case: &Case) -> Answer {
    changed(case, |_, _, judged| {
        judged.tested |= judged.verdict.number == 0;
    })
}

/// Past 120 rewritten nodes the level is that of a record with no sample.
fn no_sample_past_13(case: &Case) -> Answer {
    changed(case, |table, _, judged| {
        let rewriting = second::rewrite(table, &mut [0; 486]).verdict;
        if judged.verdict.number == 0 && rewriting.number == 13 {
            judged.level = second::plain_judge(table, &[]).level;
        }
    })
}

/// The wrong side is found out, and what both answer is told.
fn told(wrong: Side, library: &str, second: &str) {
    let (difference, text) = found(wrong);
    assert!(matches!(difference.case, Case::Plain { .. }), "{text}");
    let said = |name: &str| text.lines().find(|line| line.starts_with(name));
    assert!(said("library: ").is_some_and(|line| line.contains(library)));
    assert!(said("second:  ").is_some_and(|line| line.contains(second)));
}

// A test each, since making a difference past 13 small takes seconds.
#[test]
fn refusing_with_13_as_the_judge_does_is_found() {
    told(refuses_13, "refused 13 at 0", "level");
}

#[test]
fn ten_before_twelve_is_found() {
    told(ten_before_twelve, "refused 10 at 0", "refused 12 at 0");
}

#[test]
fn always_tested_is_found() {
    told(always_tested, "tested yes", "tested no");
}

#[test]
fn a_wrong_level_past_13_is_found() {
    told(no_sample_past_13, "level", "level");
}
