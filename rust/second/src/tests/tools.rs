//! Case text, stored sets and shrinking.

use super::base_nodes;
use crate::rewriting::rewritten;

use crate::{
    answer, answer_text, case_text, level, listed, parse_case, random_case, shrink, stored, Case,
};

#[test]
fn case_text_is_read_back() {
    for seed in 0..4_000 {
        let case = random_case(seed);
        let text = case_text(seed, &case);
        assert!(text.len() <= 8192 && text.is_ascii());
        assert_eq!(parse_case(&text), Ok((seed, case)));
    }
}

#[test]
fn case_text_as_described() {
    let (_, case) =
        parse_case("judge 195 4: 53 56 54 01 00 03 01 00*3 10 00*3 20 01 00 00 / 1*3 a")
            .expect("a good line");
    let Case::Judge { samples, words, .. } = &case else {
        panic!("a case of the judge");
    };
    assert_eq!((&samples[..], *words), (&[1, 1, 1, 10][..], 195));
    let said = answer_text(4, &answer(&case));
    assert!(said.starts_with("4: level 3 tested yes, words "), "{said}");
    let empty = Case::Rewrite {
        table: vec![],
        bytes: 0,
    };
    assert_eq!(case_text(1, &empty), "rewrite 0 1:");
    let said = answer_text(1, &answer(&empty));
    assert_eq!(said, "1: refused 1 at 0, count 0, bytes ");
    let (_, case) = parse_case("expand 20 2: 53 56 54 03 00 03 01 00*3 10 00*3 17 01 00*2")
        .expect("a good line");
    let said = answer_text(2, &answer(&case));
    let bytes = "53565402000301000000100000001401000092 93".replace(' ', "");
    assert_eq!(said, format!("2: 3 nodes, bytes {bytes}"));
    let (_, case) = parse_case("plain 5: 53 56 54 01 00 03 01 00*3 10 00*3 20 01 00 00 / 0*63")
        .expect("a good line");
    let said = answer_text(5, &answer(&case));
    assert_eq!(said, "5: level 0 tested yes");
    let (_, case) =
        parse_case("plain 6: 53 56 54 01 00 02 01 00*3 10 00*3 / 0*64").expect("a good line");
    let said = answer_text(6, &answer(&case));
    assert_eq!(said, "6: refused 12 at 0, level 0 tested no");
    let (_, case) = parse_case("read 3 7: 53 56 57 01 00 01 05 00*7").expect("a good line");
    let said = answer_text(7, &answer(&case));
    assert_eq!(said, "7: 1 samples, words 5 7 7");
}

#[test]
fn malformed_lines_are_told() {
    let lines = [
        "",
        "check",
        "check 1",
        "check : 00",
        "check x: 00",
        "check 1: 0",
        "check 1: 000",
        "check 1: 0G",
        "check 1: AB",
        "check 1: 00*9999999999999999999999",
        "check 1: 00*2049",
        "read 65 1:",
        "rewrite 501 1:",
        "expand 501 1:",
        "expand 1:",
        "judge 7866 1: / 1",
        "judge 1 1: 00",
        "judge 1 1: / 01",
        "judge 1 1: / 11112222333344445",
        "judge 1 1: / 1*101",
        "plain 1: 00",
        "plain 1 1: / 1",
        "plain 1: / 1*101",
        "ends 1 1: / 1",
        "ends -1 1 1: / 1",
        "other 1: 00",
    ];
    for line in lines {
        assert!(parse_case(line).is_err(), "{line:?}");
    }
}

#[test]
fn stored_sets_are_moderate_and_whole() {
    let (cases, answers) = stored(1, 3_000);
    let count = 3_000 + listed().len();
    assert_eq!(
        (cases.lines().count(), answers.lines().count()),
        (count, count)
    );
    assert!(cases.len() < 1_700_000 && answers.len() < 1_900_000);
    let (mut m_120, mut n_63) = (0, 0);
    let mut versions = [0; 3];
    for (line, said) in cases.lines().zip(answers.lines()) {
        let (label, case) = parse_case(line).expect("a good line");
        assert_eq!(answer_text(label, &answer(&case)), said);
        if let Case::Judge { table, samples, .. }
        | Case::Plain { table, samples }
        | Case::Ends { table, samples, .. } = &case
        {
            n_63 += usize::from(samples.len() == 63);
            if let Some(nodes) = base_nodes(table) {
                m_120 += usize::from(rewritten(&nodes).len() == 120);
                versions[usize::from(table[3]) - 1] += 1;
            }
        }
    }
    assert!(versions.iter().all(|&count| count > 360), "{versions:?}");
    assert!(m_120 >= 2 && n_63 >= 5, "{m_120} {n_63}");
}

/// The operators of a table.
fn operators(table: &[u8]) -> impl Iterator<Item = &u8> {
    table.iter().skip(6).step_by(4)
}

/// The tables and samples that shrinking leaves of the judge's cases that differ.
fn shrunk(differs: fn(&[u8], &[u64]) -> bool) -> Vec<(Vec<u8>, Vec<u64>)> {
    let mut case_differs = |case: &Case| match case {
        Case::Judge { table, samples, .. } => differs(table, samples),
        _ => false,
    };
    let mut left = Vec::new();
    for seed in 0..2_000 {
        let case = random_case(seed);
        if !case_differs(&case) {
            continue;
        }
        match shrink(case, &mut case_differs) {
            Case::Judge {
                table,
                samples,
                words: 0,
            } => left.push((table, samples)),
            other => panic!("still a case of the judge, with no words: {other:?}"),
        }
    }
    assert!(left.len() > 3, "{}", left.len());
    left
}

#[test]
fn shrinking_finds_a_small_case() {
    let breaks_an_until = |table: &[u8], samples: &[u64]| {
        let judged = level(table, samples);
        judged.verdict.accepted()
            && judged.level == 0
            && operators(table).any(|&operator| operator == 39)
    };
    for (table, samples) in shrunk(breaks_an_until) {
        assert!(table.len() <= 6 + 4 * 9, "{table:?}");
        assert!(samples.len() <= 1, "{samples:?}");
        assert_eq!(table[3], 1, "version 2 is not needed: {table:?}");
    }
}

/// The table with every risen signal made that signal.
fn with_signals(table: &[u8]) -> Vec<u8> {
    let mut changed = table.to_vec();
    for operator in changed.iter_mut().skip(6).step_by(4) {
        if *operator == 5 {
            *operator = 1;
        }
    }
    changed
}

#[test]
fn shrinking_keeps_a_risen_signal_that_matters() {
    let forgets_the_sample_before = |table: &[u8], samples: &[u64]| {
        let judged = level(table, samples);
        let forgetful = level(&with_signals(table), samples);
        judged.verdict.accepted() && judged.level != forgetful.level
    };
    for (table, samples) in shrunk(forgets_the_sample_before) {
        assert!(table.len() <= 6 + 4 * 10, "{table:?}");
        assert!(matches!(samples.len(), 2 | 3), "{samples:?}");
    }
}
