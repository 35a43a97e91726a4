//! Versions: refusals 3 and 6, rewriting, and answers that stay.

use super::{clocked_strong, clocked_strong_rewritten, table, table_2, table_of};
use crate::record::record_bytes;
use crate::{answer, check, judge, line, match_ends, random_case, read, rewrite};
use crate::{Answer, Case, Verdict};

/// strong(rose a) as nodes.
const STRONG_ROSE: [(u8, u8, u8); 3] = [(5, 0, 0), (16, 0, 0), (32, 1, 0)];

/// Asserts that checking a table refuses it so.
fn refused(table: &[u8], number: u8, node: usize) {
    assert_eq!(check(table), Verdict { number, node }, "{table:?}");
}

/// The same bytes with another version.
fn with_version(bytes: &[u8], version: u16) -> Vec<u8> {
    let mut changed = bytes.to_vec();
    changed[3..5].copy_from_slice(&version.to_le_bytes());
    changed
}

#[test]
fn tables_have_version_1_to_3() {
    let strong_a = table(&[(1, 0, 0), (16, 0, 0), (32, 1, 0)]);
    refused(&with_version(&strong_a, 1), 0, 0);
    refused(&with_version(&strong_a, 2), 0, 0);
    refused(&with_version(&strong_a, 3), 0, 0);
    for version in [0, 4, 255, 256, 257, 258, 259, 512, 513, 768, 65535] {
        refused(&with_version(&strong_a, version), 3, 0);
    }
    // The mark is asked before the version, the count after it.
    refused(b"SVX\x04\x00\x00", 2, 0);
    refused(b"SVT\x04\x00\x00", 3, 0);
    refused(b"SVT\x02\x01\x79", 3, 0);
    refused(b"SVT\x02\x00\x00", 4, 0);
    refused(b"SVT\x02\x00\x79", 4, 0);
    refused(b"SVT\x02\x00\x01", 5, 0);
    refused(b"SVT\x02\x00", 1, 0);
}

#[test]
fn records_stay_at_version_1() {
    let record = record_bytes(&[5]);
    let number = |version| {
        read(&with_version(&record, version), &mut [0])
            .verdict
            .number
    };
    assert_eq!(number(1), 0);
    for version in [0, 2, 3, 257, 258, 512] {
        assert_eq!(number(version), 3);
    }
    let strong_rose = table_2(&STRONG_ROSE);
    let with = |record: &[u8]| line(&[&strong_rose[..], record].concat());
    assert_eq!(with(&record), "level 3 tested yes");
    assert_eq!(with(&with_version(&record, 2)), "refused 3 at 0");
}

#[test]
fn version_1_has_no_risen_or_fallen_signal() {
    refused(&table_2(&STRONG_ROSE), 0, 0);
    refused(&table(&STRONG_ROSE), 6, 0);
    let both = [(1, 0, 0), (6, 1, 0), (5, 2, 0), (16, 1, 0), (32, 3, 0)];
    refused(&table_2(&both), 0, 0);
    refused(&table(&both), 6, 1);
    // A root that is a boolean is 8, but 6 comes first; so it does before 7.
    refused(&table_2(&[(5, 0, 0)]), 8, 0);
    refused(&table(&[(5, 0, 0)]), 6, 0);
    let twice = [(1, 0, 0), (16, 0, 0), (16, 0, 0), (6, 0, 0)];
    refused(&table_2(&twice), 7, 1);
    refused(&table(&twice), 6, 3);
    // An unused risen signal is refused all the same.
    let unused = [(1, 0, 0), (16, 0, 0), (5, 0, 0), (32, 1, 0)];
    refused(&table_2(&unused), 0, 0);
    refused(&table(&unused), 6, 2);
}

#[test]
fn nodes_of_version_2() {
    for operator in [5, 6] {
        let with = |x, y| table_2(&[(operator, x, y), (16, 0, 0), (32, 1, 0)]);
        refused(&with(63, 0), 0, 0);
        refused(&with(64, 0), 6, 0);
        refused(&with(255, 0), 6, 0);
        refused(&with(0, 1), 6, 0);
        let mut fourth = with(0, 0);
        fourth[9] = 128;
        refused(&fourth, 6, 0);
        refused(&table_2(&[(operator, 0, 0), (32, 0, 0)]), 6, 1);
        refused(&table_2(&[(operator, 0, 0), (34, 0, 0)]), 6, 1);
        let hollow = [(operator, 0, 0), (16, 0, 0), (20, 1, 0), (32, 2, 0)];
        refused(&table_2(&hollow), 9, 3);
    }
    for operator in (7..=15).chain(23..=31).chain(41..=255) {
        refused(&table_2(&[(1, 0, 0), (operator, 0, 0)]), 6, 1);
    }
}

#[test]
fn every_entry_point_asks_for_the_version() {
    let letter_rose = &STRONG_ROSE[..2];
    for (version, number, node) in [(4, 3, 0), (1, 6, 0), (2, 0, 0), (3, 0, 0)] {
        let expected = Verdict { number, node };
        let (property, sequence) = (
            table_of(version, &STRONG_ROSE),
            table_of(version, letter_rose),
        );
        let mut words = [0; 195];
        assert_eq!(check(&property), expected);
        assert_eq!(rewrite(&property, &mut [0; 18]).verdict, expected);
        assert_eq!(judge(&property, &[1], &mut words).verdict, expected);
        assert_eq!(match_ends(&sequence, &[1], 0, &mut words).verdict, expected);
        let said = line(&[property, record_bytes(&[1])].concat());
        match number {
            0 => assert_eq!(said, "level 3 tested yes"),
            _ => assert_eq!(said, format!("refused {number} at {node}")),
        }
    }
}

#[test]
fn rewriting_copies_the_version() {
    let mut out = vec![9; 60];
    let mut rewritten = |version, a, c| {
        let table = table_of(version, &clocked_strong(a, c));
        assert_eq!(rewrite(&table, &mut out).count, 12);
        assert_eq!(out[54..], [9; 6]);
        out[..54].to_vec()
    };
    // @(rose c) strong(fell a)
    let (fell_a, rose_c) = ((6, 0, 0), (5, 2, 0));
    let expected = table_2(&clocked_strong_rewritten(fell_a, rose_c));
    assert_eq!(rewritten(2, fell_a, rose_c), expected);
    // Without risen and fallen signals the version is the only difference.
    let (a, c) = ((1, 0, 0), (1, 2, 0));
    let of_version_1 = rewritten(1, a, c);
    assert_eq!(of_version_1, table(&clocked_strong_rewritten(a, c)));
    assert_eq!(rewritten(2, a, c), with_version(&of_version_1, 2));
}

/// The bytes of a case that begin with its table.
fn table_of_case(case: &mut Case) -> Option<&mut Vec<u8>> {
    match case {
        Case::Check { table } | Case::Rewrite { table, .. } => Some(table),
        Case::Expand { table, .. } => Some(table),
        Case::Judge { table, .. } | Case::Plain { table, .. } | Case::Ends { table, .. } => {
            Some(table)
        }
        Case::Program { input } => Some(input),
        Case::Read { .. } => None,
    }
}

/// Whether bytes begin as a table of version 1 that no node of version 2 is in.
fn is_of_version_1(bytes: &[u8]) -> bool {
    let mut nodes = bytes.iter().skip(6).step_by(4);
    bytes.starts_with(b"SVT\x01\x00") && !nodes.any(|&operator| matches!(operator, 5 | 6))
}

#[test]
fn answers_of_version_1_stay_in_version_2() {
    let mut accepted = 0;
    for seed in 0..12_000 {
        let mut case = random_case(seed);
        let mut expected = answer(&case);
        match table_of_case(&mut case) {
            Some(bytes) if is_of_version_1(bytes) => bytes[3] = 2,
            _ => continue,
        }
        let verdict = expected.verdict();
        if let Answer::Rewrite(_, out) | Answer::Expand(_, out) = &mut expected {
            if verdict == Some(Verdict::ACCEPTED) {
                out[3] = 2;
            }
        }
        accepted += usize::from(expected.verdict() == Some(Verdict::ACCEPTED));
        assert_eq!(answer(&case), expected, "{case:?}");
    }
    assert!(accepted > 2_000, "{accepted}");
}
