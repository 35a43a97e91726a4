//! The tester, tested: sides that answer wrong on purpose are found out, shrunk and printed.
mod expanding;
mod plain;
mod reading;
mod tested;

use crate::run::USUAL;
use crate::{library_answer, Difference, Run, Side, Summary};
use second::{Answer, Case};

const RUN: Run = Run {
    seed: 1,
    cases: 5000,
};

/// The difference between a wrong side and `second`, and its text.
fn found(wrong: Side) -> (Box<Difference>, String) {
    found_in(RUN, wrong)
}

/// The same in the cases of a run.
fn found_in(run: Run, wrong: Side) -> (Box<Difference>, String) {
    let outcome = run.compare(wrong, second::answer);
    let difference = outcome.expect_err("the wrong side was not found out");
    assert_ne!(difference.library, difference.second);
    assert_eq!(difference.library, wrong(&difference.case));
    assert_eq!(difference.second, second::answer(&difference.case));
    let text = difference.to_string();
    let again = format!("XISTOMAR_SEED={} XISTOMAR_CASES=1 ", difference.seed);
    assert!(text.contains(&again), "{text}");
    (difference, text)
}

/// The library, but for level 1 it says 2: nothing has failed yet.
fn waiting_is_neutral(case: &Case) -> Answer {
    let mut answer = library_answer(case);
    if let Answer::Judge(judgement, _) = &mut answer {
        if judgement.level == 1 {
            judgement.level = 2;
        }
    }
    answer
}

/// The library, but the last word of the workspace has a wrong bit.
fn last_word(case: &Case) -> Answer {
    let mut answer = library_answer(case);
    if let Answer::Judge(_, words) | Answer::Ends(_, words) = &mut answer {
        if let Some(word) = words.last_mut() {
            *word ^= 1;
        }
    }
    answer
}

/// The library, but the last byte lent for a rewritten table is cleared.
fn last_byte(case: &Case) -> Answer {
    let mut answer = library_answer(case);
    if let Answer::Rewrite(_, bytes) = &mut answer {
        if let Some(byte) = bytes.last_mut() {
            *byte = 0;
        }
    }
    answer
}

/// The library, but a refused record clears the words lent.
fn refusal_writes(case: &Case) -> Answer {
    let mut answer = library_answer(case);
    if let Answer::Read(reading, words) = &mut answer {
        if reading.verdict.number != 0 {
            words.fill(0);
        }
    }
    answer
}

/// The library, but a table is refused with 6 at the next node.
fn next_node(case: &Case) -> Answer {
    let mut answer = library_answer(case);
    if let Answer::Check(verdict) = &mut answer {
        verdict.node += usize::from(verdict.number == 6);
    }
    answer
}

/// The library, but no sequence matches with ⊤ letters after the record.
fn no_top(case: &Case) -> Answer {
    let mut answer = library_answer(case);
    if let Answer::Ends(ends, _) = &mut answer {
        ends.top = false;
    }
    answer
}

/// The library, but the judge takes a risen signal for the signal itself, where it accepts.
fn forgets_the_sample_before(case: &Case) -> Answer {
    let answer = library_answer(case);
    let mut forgetful = case.clone();
    match (&mut forgetful, &answer) {
        (Case::Judge { table, .. }, Answer::Judge(judged, _)) if judged.verdict.number == 0 => {
            let operators = table.iter_mut().skip(6).step_by(4);
            operators
                .filter(|operator| **operator == RISEN)
                .for_each(|operator| *operator = SIGNAL);
            library_answer(&forgetful)
        }
        _ => answer,
    }
}

const SIGNAL: u8 = 1;
const RISEN: u8 = 5;

/// The library, but match ends takes a suffix for a record of its own, so that its first sample has no sample before it.
fn pairs_made_anew(case: &Case) -> Answer {
    let mut answer = library_answer(case);
    let mut suffix = case.clone();
    if let (Case::Ends { samples, start, .. }, Answer::Ends(ends, _)) = (&mut suffix, &mut answer) {
        if ends.verdict.number == 0 {
            let dropped = std::mem::take(start);
            samples.drain(..dropped);
            if let Answer::Ends(anew, _) = library_answer(&suffix) {
                (ends.mask, ends.top) = (anew.mask << dropped, anew.top);
            }
        }
    }
    answer
}

/// The library, but a rewritten table has version 1.
fn version_not_copied(case: &Case) -> Answer {
    let mut answer = library_answer(case);
    if let Answer::Rewrite(rewriting, bytes) = &mut answer {
        if rewriting.verdict.number == 0 {
            bytes[3] = 1;
        }
    }
    answer
}

/// The library, but the program says that every assertion was tested.
fn always_tested(case: &Case) -> Answer {
    match library_answer(case) {
        Answer::Program(line) => Answer::Program(line.replace("tested no", "tested yes")),
        answer => answer,
    }
}

#[test]
fn a_wrong_level_is_found_shrunk_and_printed() {
    let (difference, text) = found(waiting_is_neutral);
    let Case::Judge { table, samples, .. } = &difference.case else {
        panic!("this is no case of the judge: {:?}", difference.case);
    };
    assert!(table.len() <= 22, "four nodes are enough: {table:?}");
    assert!(samples.is_empty(), "no sample is needed: {samples:?}");
    assert!(text.contains("level 1"), "{text}");
    assert!(text.contains("level 2"), "{text}");
}

#[test]
fn a_wrong_word_or_byte_that_was_lent_is_found() {
    for (wrong, name) in [
        (last_word as Side, "word"),
        (last_byte, "byte"),
        (refusal_writes, "word 0"),
    ] {
        let (_, text) = found(wrong);
        assert!(text.contains(&format!("lent:    {name}")), "{text}");
    }
}

#[test]
fn every_kind_of_answer_is_compared() {
    assert!(matches!(found(next_node).0.case, Case::Check { .. }));
    assert!(matches!(found(refusal_writes).0.case, Case::Read { .. }));
    assert!(matches!(found(last_byte).0.case, Case::Rewrite { .. }));
    assert!(matches!(
        found(waiting_is_neutral).0.case,
        Case::Judge { .. }
    ));
    assert!(matches!(found(no_top).0.case, Case::Ends { .. }));
    assert!(matches!(found(always_tested).0.case, Case::Program { .. }));
}

#[test]
fn rising_signals_and_versions_are_compared() {
    for wrong in [forgets_the_sample_before as Side, pairs_made_anew] {
        let (difference, text) = found(wrong);
        let (Case::Judge { table, samples, .. } | Case::Ends { table, samples, .. }) =
            &difference.case
        else {
            panic!("these answer wrong in no other case: {text}");
        };
        assert_eq!(table[3], 2, "{text}");
        assert!(table.len() <= 18, "three nodes are enough: {text}");
        assert_eq!(samples.len(), 2, "{text}");
    }
    let (_, text) = found(version_not_copied);
    assert!(
        text.contains("lent:    byte 3 is 0x1 by the library, 0x2"),
        "{text}"
    );
}

#[test]
fn the_case_of_a_difference_can_be_run_alone() {
    let (seed, cases) = (found(no_top).0.seed, 1);
    let alone = Run { seed, cases }.compare(no_top, second::answer);
    assert_eq!(alone.unwrap_err().seed, seed);
}

#[test]
#[should_panic(expected = "a side panicked")]
fn a_side_that_panics_is_not_passed_over() {
    let _ = RUN.compare(|_| panic!("on purpose"), second::answer);
}

#[test]
fn a_seed_fixes_the_cases_and_no_run_passes_on_nothing() {
    let summary = RUN.compare(library_answer, library_answer).unwrap();
    let again = RUN.compare(library_answer, library_answer).unwrap();
    assert_eq!(summary, again);
    assert_eq!(summary.cases(), RUN.cases);
    assert_eq!(summary.lacking(RUN.cases), Vec::<String>::new());

    let of_flags = 2 + 4 * 2;
    let past_13 = 4 + 2;
    let of_all = 1 + 16 + 7 * 5 + 15 + 11 + 4 + of_flags + past_13;
    let lacking = Summary::default().lacking(20_000);
    assert_eq!(lacking.len(), of_all);
    assert_eq!(lacking[0], "0 cases, not 20000 or more");

    let of_a_kind = 9 + 6 + 11 + 13 + 12 + 14 + 12 + 11;
    let lacking = Summary::default().lacking(USUAL);
    assert_eq!(lacking.len(), of_all + of_a_kind);
}
