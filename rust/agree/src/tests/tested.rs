//! Sides whose judge says wrongly what was tested are found out.
use super::reading::{Reading, Slip};
use super::{found_in, RUN};
use crate::run::USUAL;
use crate::{library_answer, Run, Side};
use second::{Answer, Case};

/// The library, but the judge's flag is what a reading of table, samples and rows says.
fn with_flag(case: &Case, read: impl Fn(&[u8], &[u64], &[u64]) -> bool) -> Answer {
    let mut answer = library_answer(case);
    if let (Case::Judge { table, samples, .. }, Answer::Judge(judged, rows)) = (case, &mut answer) {
        if judged.verdict.number == 0 {
            judged.tested = read(table, samples, rows);
        }
    }
    answer
}

/// The library, but the judge's flag is read off the expansion with a slip.
fn slipped(case: &Case, slip: Slip) -> Answer {
    with_flag(case, |table, samples, rows| {
        let expansion = written(|out| second::expand(table, out).count);
        Reading::tested(&expansion, samples.len(), rows, slip)
    })
}

/// The library, but the judge's flag is that of the rewritten table.
fn rewritten(case: &Case) -> Answer {
    with_flag(case, |table, samples, rows| {
        let rewritten = written(|out| second::rewrite(table, out).count);
        Reading::tested(&rewritten, samples.len(), rows, Slip::Nowhere)
    })
}

/// The table that a call writes, which answers its count.
fn written(write: impl Fn(&mut [u8]) -> usize) -> Vec<u8> {
    let mut out = vec![0; 486];
    let count = write(&mut out);
    out.truncate(6 + 4 * count);
    out
}

/// The sides that slip, with a name of each.
const SLIPS: [(&str, Side); 12] = [
    ("any start", |case| slipped(case, Slip::AnyStart)),
    ("empty match", |case| slipped(case, Slip::EmptyMatch)),
    ("match alone", |case| slipped(case, Slip::MatchAlone)),
    ("after the match", |case| slipped(case, Slip::AfterTheMatch)),
    ("empty word", |case| slipped(case, Slip::EmptyWord)),
    ("next sample", |case| slipped(case, Slip::NextSample)),
    ("left fails", |case| slipped(case, Slip::LeftFails)),
    ("right holds", |case| slipped(case, Slip::RightHolds)),
    ("every sample", |case| slipped(case, Slip::EverySample)),
    ("weakly", |case| slipped(case, Slip::Weakly)),
    ("strongly", |case| slipped(case, Slip::Strongly)),
    ("rewritten", rewritten),
];

#[test]
fn without_a_slip_the_rows_give_the_flag() {
    let outcome = RUN.compare(|case| slipped(case, Slip::Nowhere), second::answer);
    assert_eq!(outcome.unwrap().cases(), RUN.cases);
}

#[test]
fn a_slip_in_what_was_tested_is_found() {
    let (seed, cases) = (1, USUAL);
    for (name, wrong) in SLIPS {
        let (difference, text) = found_in(Run { seed, cases }, wrong);
        let Case::Judge { table, samples, .. } = &difference.case else {
            panic!("{name}: this is no case of the judge: {text}");
        };
        assert!(text.contains("tested yes"), "{name}: {text}");
        assert!(text.contains("tested no"), "{name}: {text}");
        assert!(table.len() <= 74, "{name}: 17 nodes are enough: {text}");
        assert!(samples.len() <= 2, "{name}: two samples are enough: {text}");
    }
}
