//! The examples of docs/FORMAT.md and the small cases of the open points.

use super::{abc, clocked_strong, clocked_strong_rewritten, has_level, table};
use crate::record::record_bytes;
use crate::{check, judge, line, match_ends, rewrite, Verdict};

/// strong(a ##1 b) or weak(a ##1 b).
fn a_then_b(promotion: u8) -> Vec<u8> {
    abc(&[(16, 0, 0), (16, 1, 0), (17, 3, 4), (promotion, 5, 0)])
}

/// strong(a) until strong(b).
fn a_until_b() -> Vec<u8> {
    abc(&[(16, 0, 0), (32, 3, 0), (16, 1, 0), (32, 5, 0), (39, 4, 6)])
}

/// @(c) strong(a ##1 b).
fn clocked() -> Vec<u8> {
    abc(&[(16, 0, 0), (16, 1, 0), (17, 3, 4), (32, 5, 0), (40, 2, 6)])
}

#[test]
fn proved_examples() {
    has_level(&a_then_b(32), &[1], 1);
    has_level(&a_then_b(33), &[1], 2);
    has_level(&a_then_b(32), &[1, 2], 3);
    has_level(&a_then_b(33), &[1, 1], 0);
    let p5 = abc(&[(16, 0, 0), (16, 1, 0), (32, 4, 0), (38, 5, 0), (37, 3, 6)]);
    has_level(&p5, &[1], 1);
    has_level(&a_until_b(), &[1, 1], 2);
    has_level(&a_until_b(), &[1, 0], 0);
    has_level(&abc(&[(16, 0, 0), (32, 3, 0), (34, 4, 0)]), &[], 2);
    has_level(&abc(&[(16, 0, 0), (33, 3, 0), (34, 4, 0)]), &[], 1);
    has_level(&clocked(), &[1, 5, 2, 6], 3);
    has_level(&clocked(), &[5, 2], 1);
}

#[test]
fn match_ends_example() {
    let repeated = table(&[(1, 0, 0), (16, 0, 0), (21, 1, 0)]);
    let mut workspace = vec![0; 195];
    let ends = match_ends(&repeated, &[1, 1, 2], 0, &mut workspace);
    assert_eq!((ends.verdict, ends.mask), (Verdict::ACCEPTED, 6));
    assert!(!ends.top);
    assert_eq!(workspace[0], 3);
    assert_eq!(workspace[65..69], [2, 4, 0, 0]);
    assert_eq!(workspace[65 + 64], 8);
    assert_eq!(workspace[130..134], [6, 4, 0, 0]);
    assert_eq!(workspace[130 + 64], 8);
}

#[test]
fn whole_table_example() {
    let bytes = [
        0x53, 0x56, 0x54, 0x01, 0x00, 0x03, 0x01, 0x00, 0x00, 0x00, 0x10, 0x00, 0x00, 0x00, 0x20,
        0x01, 0x00, 0x00,
    ];
    assert_eq!(check(&bytes), Verdict::ACCEPTED);
    assert_eq!(bytes[..], table(&[(1, 0, 0), (16, 0, 0), (32, 1, 0)]));
    let hollow = table(&[(1, 0, 0), (16, 0, 0), (20, 1, 0), (32, 2, 0)]);
    assert_eq!(check(&hollow), Verdict { number: 9, node: 3 });
}

#[test]
fn sample_limit_example() {
    let strong_a = table(&[(1, 0, 0), (16, 0, 0), (32, 1, 0)]);
    has_level(&strong_a, &[1; 63], 3);
    let mut workspace = vec![0; 7800];
    let refused = judge(&strong_a, &[1; 64], &mut workspace);
    assert_eq!(refused.verdict, Verdict::refused(10));
    assert!(workspace.iter().all(|&word| word == 0));
}

#[test]
fn rewriting_example() {
    let (a, c) = ((1, 0, 0), (1, 2, 0));
    let clocked = table(&clocked_strong(a, c));
    let expected = table(&clocked_strong_rewritten(a, c));
    let mut out = vec![9; 60];
    let rewriting = rewrite(&clocked, &mut out);
    assert_eq!(
        (rewriting.verdict, rewriting.count),
        (Verdict::ACCEPTED, 12)
    );
    assert_eq!(out[..54], expected);
    assert_eq!(out[54..], [9; 6]);
}

#[test]
fn long_blocks() {
    let next = table(&[
        (1, 0, 0),
        (16, 0, 0),
        (22, 0, 1),
        (32, 2, 0),
        (38, 3, 0),
        (40, 0, 4),
    ]);
    let mut out = vec![0; 500];
    let rewriting = rewrite(&next, &mut out);
    assert_eq!(rewriting.count, 1 + 9 + 1 + 14);
    let block = [
        [2, 0, 0, 0],
        [16, 11, 0, 0],
        [32, 12, 0, 0],
        [16, 0, 0, 0],
        [32, 14, 0, 0],
        [36, 15, 10, 0],
        [39, 13, 16, 0],
        [38, 17, 0, 0],
        [16, 0, 0, 0],
        [32, 19, 0, 0],
        [36, 20, 18, 0],
        [16, 11, 0, 0],
        [32, 22, 0, 0],
        [39, 23, 21, 0],
    ];
    assert_eq!(out[6 + 44..6 + 100], block.concat());
}

#[test]
fn program_example() {
    let input = [a_then_b(32), record_bytes(&[1])].concat();
    assert_eq!(line(&input), "level 1 tested yes");
    assert_eq!(line(&a_then_b(32)), "refused 1 at 0");
    assert_eq!(line(b"SVT"), "refused 1 at 0");
    assert_eq!(line(&[&input[..], b"\n"].concat()), "refused 5 at 0");
    let untested = abc(&[(16, 0, 0), (16, 1, 0), (32, 4, 0), (37, 3, 5)]);
    let input = [untested, record_bytes(&[2])].concat();
    assert_eq!(line(&input), "level 3 tested no");
}

#[test]
fn small_cases_of_letters_and_tails() {
    has_level(&table(&[(0, 0, 0), (16, 0, 0), (32, 1, 0)]), &[], 1);
    has_level(&abc(&[(16, 0, 0), (33, 3, 0), (34, 4, 0)]), &[], 1);
    let a_implies_a = abc(&[(16, 0, 0), (16, 0, 0), (32, 4, 0), (37, 3, 5)]);
    has_level(&a_implies_a, &[], 2);
    let b_or_empty_implies_b = abc(&[
        (16, 1, 0),
        (16, 1, 0),
        (20, 4, 0),
        (19, 3, 5),
        (16, 1, 0),
        (33, 7, 0),
        (37, 6, 8),
    ]);
    has_level(&b_or_empty_implies_b, &[4, 2, 2, 1], 3);
    has_level(&abc(&[(16, 0, 0), (33, 3, 0)]), &[], 2);
    has_level(&abc(&[(16, 0, 0), (32, 3, 0), (38, 4, 0)]), &[], 2);
    let one_until_one = table(&[
        (0, 1, 0),
        (16, 0, 0),
        (32, 1, 0),
        (16, 0, 0),
        (32, 3, 0),
        (39, 2, 4),
    ]);
    has_level(&one_until_one, &[], 2);
}

#[test]
fn small_cases_of_clocks() {
    let clocked_until = abc(&[
        (16, 1, 0),
        (33, 3, 0),
        (16, 1, 0),
        (33, 5, 0),
        (39, 4, 6),
        (40, 1, 7),
    ]);
    has_level(&clocked_until, &[], 2);
    let clocked_next = abc(&[(16, 0, 0), (21, 3, 0), (32, 4, 0), (38, 5, 0), (40, 0, 6)]);
    has_level(&clocked_next, &[7], 2);
    let two_clocks = table(&[
        (1, 0, 0),
        (2, 0, 0),
        (16, 0, 0),
        (33, 2, 0),
        (40, 1, 3),
        (40, 0, 4),
    ]);
    has_level(&two_clocks, &[0], 0);
}

#[test]
fn small_cases_of_empty_matches() {
    let empty_first = abc(&[
        (16, 0, 0),
        (16, 0, 0),
        (20, 4, 0),
        (19, 3, 5),
        (16, 1, 0),
        (18, 6, 7),
        (32, 8, 0),
    ]);
    has_level(&empty_first, &[2], 0);
    let empty_second = abc(&[
        (16, 0, 0),
        (16, 0, 0),
        (17, 3, 4),
        (16, 1, 0),
        (16, 1, 0),
        (20, 7, 0),
        (19, 6, 8),
        (18, 5, 9),
        (32, 10, 0),
    ]);
    has_level(&empty_second, &[1, 1], 0);
    let empty_repeated = abc(&[
        (16, 1, 0),
        (20, 3, 0),
        (21, 4, 0),
        (16, 0, 0),
        (17, 5, 6),
        (32, 7, 0),
    ]);
    has_level(&empty_repeated, &[1], 3);
}
