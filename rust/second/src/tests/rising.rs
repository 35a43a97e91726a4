//! Rising and falling signals, worked out by hand from docs/FORMAT.md (Letters, words
//! and tails). Pairs are written (sample before, sample); a, b, c are signals 0, 1, 2.

use super::{has_level, table_2};
use crate::{judge, match_ends, Verdict};

const ROSE_A: (u8, u8, u8) = (5, 0, 0);
const FELL_A: (u8, u8, u8) = (6, 0, 0);

/// strong or weak of one letter that satisfies a boolean without operands.
fn one_letter(promotion: u8, boolean: (u8, u8, u8)) -> Vec<u8> {
    table_2(&[boolean, (16, 0, 0), (promotion, 1, 0)])
}

/// strong(first ##1 second), with booleans without operands.
fn then(first: (u8, u8, u8), second: (u8, u8, u8)) -> Vec<u8> {
    table_2(&[
        first,
        second,
        (16, 0, 0),
        (16, 1, 0),
        (17, 2, 3),
        (32, 4, 0),
    ])
}

/// @(clock) strong(first ##1 second), with booleans without operands.
fn then_under(clock: (u8, u8, u8), first: (u8, u8, u8), second: (u8, u8, u8)) -> Vec<u8> {
    table_2(&[
        first,
        second,
        clock,
        (16, 0, 0),
        (16, 1, 0),
        (17, 3, 4),
        (32, 5, 0),
        (40, 2, 6),
    ])
}

const TRUE: (u8, u8, u8) = (0, 1, 0);

#[test]
fn the_sample_before_the_first_is_all_zero() {
    has_level(&one_letter(32, ROSE_A), &[1], 3);
    has_level(&one_letter(32, ROSE_A), &[0], 0);
    has_level(&one_letter(33, FELL_A), &[0], 0);
    has_level(&one_letter(33, FELL_A), &[1], 0);
    has_level(&one_letter(32, (5, 63, 0)), &[1 << 63], 3);
    has_level(&one_letter(32, (5, 63, 0)), &[u64::MAX >> 1], 0);
}

#[test]
fn pairs_are_made_of_the_whole_record() {
    has_level(&then((5, 1, 0), (5, 1, 0)), &[2], 1);
    has_level(&then((5, 1, 0), (5, 1, 0)), &[2, 2], 0);
    has_level(&then(TRUE, ROSE_A), &[1, 1], 0);
    has_level(&then(TRUE, ROSE_A), &[0, 1], 3);
    has_level(&then(TRUE, FELL_A), &[1, 0], 3);
    has_level(&then(TRUE, FELL_A), &[0, 0], 0);
    has_level(&then(TRUE, (6, 63, 0)), &[1 << 63, 1], 3);
    has_level(&then(ROSE_A, (5, 1, 0)), &[1, 2], 3);
    has_level(&then(ROSE_A, FELL_A), &[1, 2], 3);
}

#[test]
fn both_on_one_shared_letter() {
    // (1 ##1 rose a) ##0 fell b: the shared letter is (2, 1) or (2, 3).
    let fused = table_2(&[
        TRUE,
        ROSE_A,
        (6, 1, 0),
        (16, 0, 0),
        (16, 1, 0),
        (17, 3, 4),
        (16, 2, 0),
        (18, 5, 6),
        (32, 7, 0),
    ]);
    has_level(&fused, &[2, 1], 3);
    has_level(&fused, &[2, 3], 0);
}

#[test]
fn tails_satisfy_both_or_neither() {
    has_level(&one_letter(32, ROSE_A), &[], 1);
    has_level(&one_letter(33, ROSE_A), &[], 2);
    has_level(&one_letter(32, FELL_A), &[], 1);
    has_level(&one_letter(33, FELL_A), &[], 2);
    // A ⊤ has risen, has fallen and has not risen; a pair cannot.
    let all = table_2(&[
        ROSE_A,
        FELL_A,
        (2, 0, 0),
        (3, 0, 1),
        (3, 2, 3),
        (16, 4, 0),
        (32, 5, 0),
    ]);
    has_level(&all, &[], 1);
    has_level(&all, &[1], 0);
}

#[test]
fn under_boolean_not() {
    let not_first = |boolean| table_2(&[boolean, (2, 0, 0), (16, 1, 0), (32, 2, 0)]);
    has_level(&not_first(ROSE_A), &[1], 0);
    has_level(&not_first(ROSE_A), &[0], 3);
    has_level(&not_first(ROSE_A), &[], 1);
    has_level(&not_first(FELL_A), &[1], 3);
    // strong(1 ##1 not b), b risen or fallen.
    let not_second = |boolean| {
        table_2(&[
            TRUE,
            boolean,
            (2, 1, 0),
            (16, 0, 0),
            (16, 2, 0),
            (17, 3, 4),
            (32, 5, 0),
        ])
    };
    has_level(&not_second(ROSE_A), &[1, 1], 3);
    has_level(&not_second(ROSE_A), &[0, 1], 0);
    has_level(&not_second(FELL_A), &[1, 0], 0);
    has_level(&not_second(FELL_A), &[0, 0], 3);
}

#[test]
fn under_property_not() {
    let not = |promotion, boolean| table_2(&[boolean, (16, 0, 0), (promotion, 1, 0), (34, 2, 0)]);
    has_level(&not(32, ROSE_A), &[1], 0);
    has_level(&not(32, ROSE_A), &[0], 3);
    has_level(&not(32, ROSE_A), &[], 2);
    has_level(&not(33, FELL_A), &[0], 3);
    has_level(&not(33, FELL_A), &[], 1);
    // not strong(1 ##1 rose a)
    let not_then = table_2(&[
        TRUE,
        ROSE_A,
        (16, 0, 0),
        (16, 1, 0),
        (17, 2, 3),
        (32, 4, 0),
        (34, 5, 0),
    ]);
    has_level(&not_then, &[1, 1], 3);
    has_level(&not_then, &[0, 1], 0);
    has_level(&not_then, &[1], 2);
}

#[test]
fn a_part_that_starts_later_knows_the_sample_before() {
    let next = |promotion, boolean| table_2(&[boolean, (16, 0, 0), (promotion, 1, 0), (38, 2, 0)]);
    has_level(&next(32, ROSE_A), &[1, 1], 0);
    has_level(&next(32, ROSE_A), &[0, 1], 3);
    has_level(&next(33, FELL_A), &[1, 0], 3);
    has_level(&next(33, FELL_A), &[0, 0], 0);
    // strong(rose a) until strong(b)
    let until = table_2(&[
        ROSE_A,
        (1, 1, 0),
        (16, 0, 0),
        (32, 2, 0),
        (16, 1, 0),
        (32, 4, 0),
        (39, 3, 5),
    ]);
    has_level(&until, &[1, 1, 2], 0);
    has_level(&until, &[1, 2], 3);
    has_level(&until, &[1], 2);
    // strong(a) until strong(fell b)
    let until_fell = table_2(&[
        (1, 0, 0),
        (6, 1, 0),
        (16, 0, 0),
        (32, 2, 0),
        (16, 1, 0),
        (32, 4, 0),
        (39, 3, 5),
    ]);
    has_level(&until_fell, &[3, 0], 3);
    has_level(&until_fell, &[1, 0], 0);
}

#[test]
fn both_sides_of_an_implication() {
    // (1 ##1 1) |-> strong(rose a)
    let right = table_2(&[
        TRUE,
        ROSE_A,
        (16, 0, 0),
        (16, 0, 0),
        (17, 2, 3),
        (16, 1, 0),
        (32, 5, 0),
        (37, 4, 6),
    ]);
    has_level(&right, &[1, 1], 0);
    has_level(&right, &[0, 1], 3);
    // (1 ##1 fell a) |-> strong(b)
    let left = table_2(&[
        TRUE,
        FELL_A,
        (1, 1, 0),
        (16, 0, 0),
        (16, 1, 0),
        (17, 3, 4),
        (16, 2, 0),
        (32, 6, 0),
        (37, 5, 7),
    ]);
    let judged = |samples: &[u64]| {
        let judged = judge(&left, samples, &mut [0; 9 * 65]);
        assert_eq!(judged.verdict, Verdict::ACCEPTED);
        (judged.level, judged.tested)
    };
    assert_eq!(judged(&[1, 0]), (0, true));
    assert_eq!(judged(&[1, 2]), (3, true));
    assert_eq!(judged(&[1, 1]), (3, false));
    assert_eq!(judged(&[0, 0]), (3, false));
    // Only from start 1 there is a match.
    assert_eq!(judged(&[0, 1, 2]), (3, false));
}

#[test]
fn a_suffix_is_tested_by_the_pairs_of_the_whole_record() {
    // nexttime (edge a |-> strong(b)): suffix 1 still knows sample 0.
    let tested = |edge, samples: &[u64]| {
        let letters = [edge, (1, 1, 0), (16, 0, 0), (16, 1, 0)];
        let table = table_2(&[&letters[..], &[(32, 3, 0), (37, 2, 4), (38, 5, 0)]].concat());
        let judged = judge(&table, samples, &mut [0; 7 * 65]);
        assert_eq!(judged.verdict, Verdict::ACCEPTED);
        judged.tested
    };
    assert!(tested(ROSE_A, &[0, 1]));
    assert!(!tested(ROSE_A, &[1, 1]));
    assert!(tested(FELL_A, &[1, 0]));
    assert!(!tested(FELL_A, &[0, 0]));
}

#[test]
fn under_a_clock_it_goes_by_the_sample_before_and_not_by_the_tick_before() {
    let c = (1, 2, 0);
    let rose_b = then_under(c, TRUE, (5, 1, 0));
    has_level(&rose_b, &[4, 2, 6], 0);
    has_level(&rose_b, &[4, 0, 6], 3);
    has_level(&rose_b, &[6, 0, 6], 3);
    has_level(&rose_b, &[6, 6], 0);
    has_level(&rose_b, &[4, 2], 1);
    let fell_b = then_under(c, TRUE, (6, 1, 0));
    has_level(&fell_b, &[6, 0, 4], 0);
    has_level(&fell_b, &[6, 2, 4], 3);
    has_level(&fell_b, &[4, 2, 4], 3);
    // @(c) strong(rose b): the first tick is sample 1, and b was high before it.
    let first = table_2(&[(5, 1, 0), c, (16, 0, 0), (32, 2, 0), (40, 1, 3)]);
    has_level(&first, &[2, 6], 0);
    has_level(&first, &[0, 6], 3);
    has_level(&first, &[2], 1);
}

#[test]
fn as_the_condition_of_a_clock() {
    let (a, b) = ((1, 0, 0), (1, 1, 0));
    let rising = then_under((5, 2, 0), a, b);
    has_level(&rising, &[5, 6], 1);
    has_level(&rising, &[5, 6, 0, 6], 3);
    has_level(&rising, &[5, 6, 0, 5], 0);
    let falling = then_under((6, 2, 0), a, b);
    has_level(&falling, &[4, 5], 1);
    has_level(&falling, &[4, 1, 6, 2], 3);
    has_level(&falling, &[4, 2], 0);
    // @(rose c) strong(rose c): risen at its own tick.
    let own = table_2(&[(5, 2, 0), (16, 0, 0), (32, 1, 0), (40, 0, 2)]);
    has_level(&own, &[0, 4], 3);
    has_level(&own, &[0, 0], 1);
    // @(rose c) nexttime strong(b)
    let next = table_2(&[b, (5, 2, 0), (16, 0, 0), (32, 2, 0), (38, 3, 0), (40, 1, 4)]);
    has_level(&next, &[4, 6], 2);
    has_level(&next, &[4, 4, 0, 6], 3);
    has_level(&next, &[4, 4, 0, 4], 0);
    // @(rose c) (strong(a) until strong(b))
    let until = table_2(&[
        a,
        b,
        (5, 2, 0),
        (16, 0, 0),
        (32, 3, 0),
        (16, 1, 0),
        (32, 5, 0),
        (39, 4, 6),
        (40, 2, 7),
    ]);
    has_level(&until, &[5, 4, 0, 6], 3);
    has_level(&until, &[5, 4, 0, 4], 0);
    has_level(&until, &[5, 4], 2);
}

#[test]
fn rows_and_match_ends() {
    let repeated = table_2(&[ROSE_A, FELL_A, (16, 0, 0), (21, 2, 0)]);
    let mut workspace = vec![7; 4 * 65 + 1];
    let ends = match_ends(&repeated, &[1, 1, 0, 1], 3, &mut workspace);
    assert_eq!(ends.verdict, Verdict::ACCEPTED);
    assert_eq!((ends.mask, ends.top), (16, true));
    let mut expected = vec![0; 4 * 65];
    // Risen at samples 0 and 3, fallen at sample 2.
    expected[0] = 9;
    expected[65] = 4;
    for row in [130, 195] {
        expected[row] = 2;
        expected[row + 3] = 16;
    }
    // One ⊤ alone matches the letter; a repetition may begin at sample 3, too.
    expected[130 + 64] = 16;
    expected[195 + 64] = 24;
    expected.push(7);
    assert_eq!(workspace, expected);
}
