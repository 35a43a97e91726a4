//! Version 2: signals that have risen or fallen since the sample before, worked out by hand from docs/FORMAT.md (Letters, words and tails). a, b, c are signals 0, 1, 2.
mod clocked;
mod tables;

use clocked::{clocked, unclocked};
use rows::{check, judge, match_ends, rewrite, Verdict};
use tables::{level, node, table, A, B, C};

const ROSE_A: [u8; 4] = [5, 0, 0, 0];
const FELL_A: [u8; 4] = [6, 0, 0, 0];

/// A letter of the first node.
const FIRST: [u8; 4] = [16, 0, 0, 0];

/// strong of a letter of the boolean.
fn strong(boolean: [u8; 4]) -> [[u8; 4]; 3] {
    [boolean, FIRST, node(32, 1, 0)]
}

/// nexttime strong of a letter of the boolean.
fn next(boolean: [u8; 4]) -> [[u8; 4]; 4] {
    [boolean, FIRST, node(32, 1, 0), node(38, 2, 0)]
}

/// The words in which a has risen and has fallen. The other words of their rows have to be 0.
fn rows_of_a(samples: &[u64]) -> (u64, u64) {
    let nodes = table(2, &[ROSE_A, FELL_A, FIRST, node(32, 2, 0)]);
    let mut words = [7; 4 * 65];
    assert_eq!(judge(&nodes, samples, &mut words).verdict.number, 0);
    let all_zero = |words: &[u64]| words.iter().all(|&word| word == 0);
    assert!(all_zero(&words[1..65]) && all_zero(&words[66..130]));
    (words[0], words[65])
}

#[test]
fn the_rows() {
    assert_eq!(rows_of_a(&[]), (0, 0));
    // The sample before the first is all zero: a has risen there, and can not have fallen.
    assert_eq!(rows_of_a(&[1]), (0b1, 0));
    assert_eq!(rows_of_a(&[0]), (0, 0));
    assert_eq!(rows_of_a(&[0, 1]), (0b10, 0));
    assert_eq!(rows_of_a(&[1, 0]), (0b01, 0b10));
    assert_eq!(rows_of_a(&[1, 1, 0, 0, 1, 0, 1]), (0b101_0001, 0b010_0100));
    // Other signals have no part in it.
    assert_eq!(rows_of_a(&[6, 7, 1, !1]), (0b0010, 0b1000));
}

#[test]
fn the_rows_of_a_full_record() {
    let every_other = |n: u64| (0..n).map(|i| 1 - i % 2).collect::<Vec<_>>();
    let even = 0x5555_5555_5555_5555;
    // a is high in the last sample, 62: what comes after the record is no sample in which it has fallen.
    assert_eq!(rows_of_a(&every_other(63)), (even, 0x2aaa_aaaa_aaaa_aaaa));
    assert_eq!(rows_of_a(&[1; 63]), (1, 0));
    assert_eq!(rows_of_a(&[0; 63]), (0, 0));
    let mut last_low = [1; 63];
    last_low[62] = 0;
    assert_eq!(rows_of_a(&last_low), (1, 1 << 62));
}

#[test]
fn a_pair_is_made_before_a_suffix_is_taken() {
    // strong(rose b ##1 rose b): b has risen in the first sample alone. Made anew for suffix 1, its first pair would rise.
    let rose_b = node(5, 1, 0);
    let nodes = [rose_b, FIRST, FIRST, node(17, 1, 2), node(32, 3, 0)];
    assert_eq!(level(2, &nodes, &[2, 2]), 0);
    assert_eq!(level(2, &nodes, &[2]), 1);
    assert_eq!(level(2, &next(ROSE_A), &[1, 1]), 0);
    assert_eq!(level(2, &next(ROSE_A), &[0, 1]), 3);
    assert_eq!(level(2, &next(FELL_A), &[1, 0]), 3);
    assert_eq!(level(2, &next(FELL_A), &[0, 0]), 0);
}

#[test]
fn match_ends_from_a_start() {
    let nodes = table(2, &[ROSE_A, FIRST]);
    let mask = |samples: &[u64], start| match_ends(&nodes, samples, start, &mut [0; 130]).mask;
    assert_eq!(mask(&[1, 1], 0), 0b10);
    assert_eq!(mask(&[1, 1], 1), 0);
    assert_eq!(mask(&[0, 1], 1), 0b100);
}

#[test]
fn a_letter_of_a_tail_has_risen_and_fallen() {
    // strong(rose a and fell a): no pair of samples is both, and ⊤ is.
    let nodes = [
        ROSE_A,
        FELL_A,
        node(3, 0, 1),
        node(16, 2, 0),
        node(32, 3, 0),
    ];
    assert_eq!(level(2, &nodes, &[]), 1);
    assert_eq!(level(2, &nodes, &[1]), 0);
    // ⊥ is neither: not strong(rose a) on no samples.
    let nodes = [ROSE_A, FIRST, node(32, 1, 0), node(34, 2, 0)];
    assert_eq!(level(2, &nodes, &[]), 2);
}

#[test]
fn under_a_clock_the_sample_before_counts_and_not_the_tick_before() {
    let nodes = clocked(ROSE_A);
    assert_eq!(level(2, &nodes, &[0, 5]), 3);
    assert_eq!(level(2, &nodes, &[1, 5]), 0);
    assert_eq!(level(2, &nodes, &[1]), 1);
}

#[test]
fn a_rise_as_a_clock() {
    // @(rose c) strong(a ##1 a): c stays high in the second sample, which is no tick.
    let rose_c = node(5, 2, 0);
    let nodes = [
        A,
        rose_c,
        FIRST,
        FIRST,
        node(17, 2, 3),
        node(32, 4, 0),
        node(40, 1, 5),
    ];
    assert_eq!(level(2, &nodes, &[5, 4]), 1);
    assert_eq!(level(2, &nodes, &[5, 0, 5]), 3);
    assert_eq!(level(2, &nodes, &[5, 0, 4]), 0);
}

#[test]
fn every_signal_rises_and_falls() {
    for s in 0..64 {
        let high = 1 << s;
        assert_eq!(level(2, &strong(node(5, s, 0)), &[high]), 3);
        assert_eq!(level(2, &strong(node(5, s, 0)), &[!high]), 0);
        assert_eq!(level(2, &next(node(6, s, 0)), &[high, !high]), 3);
        assert_eq!(level(2, &next(node(6, s, 0)), &[!high, high]), 0);
    }
}

#[test]
fn version_2_has_all_of_version_1() {
    // P10, as in version 1.
    let nodes = [
        A,
        B,
        C,
        FIRST,
        node(16, 1, 0),
        node(17, 3, 4),
        node(32, 5, 0),
        node(40, 2, 6),
    ];
    assert_eq!(level(2, &nodes, &[1, 5, 2, 6]), 3);
    assert_eq!(level(2, &nodes, &[5, 2]), 1);
}

#[test]
fn refusal_3() {
    let number = |version| check(&table(version, &strong(A))).number;
    assert_eq!([1, 2, 3].map(number), [0, 0, 0]);
    assert_eq!([0, 4, 256, 257, 258, 259, 512, 513].map(number), [3; 8]);
}

#[test]
fn refusal_6() {
    let refused = |version, boolean| check(&table(version, &strong(boolean)));
    let at_0 = Verdict { number: 6, node: 0 };
    for op in [5, 6] {
        assert_eq!(refused(2, node(op, 63, 0)), Verdict::default());
        assert_eq!(refused(1, node(op, 0, 0)), at_0);
        assert_eq!(refused(2, node(op, 64, 0)), at_0);
        assert_eq!(refused(2, node(op, 0, 1)), at_0);
        assert_eq!(refused(2, [op, 0, 0, 1]), at_0);
    }
    // Operators 7 and 41 are in neither version.
    assert_eq!(refused(2, node(7, 0, 0)), at_0);
    assert_eq!(refused(2, node(41, 0, 0)), at_0);
    // The lowest such node, and before 8.
    let nodes = [A, ROSE_A, FELL_A];
    assert_eq!(check(&table(1, &nodes)), Verdict { number: 6, node: 1 });
    assert_eq!(check(&table(2, &nodes)), Verdict { number: 8, node: 0 });
    // What has risen is a boolean, and no sequence.
    let nodes = [ROSE_A, node(32, 0, 0)];
    assert_eq!(check(&table(2, &nodes)), Verdict { number: 6, node: 1 });
}

#[test]
fn rewriting_copies_the_version() {
    let mut out = [9; 57];
    assert_eq!(rewrite(&table(2, &clocked(ROSE_A)), &mut out).count, 12);
    assert_eq!(out[..54], table(2, &unclocked(ROSE_A)));
    assert_eq!(out[54..], [9, 9, 9]);
}
