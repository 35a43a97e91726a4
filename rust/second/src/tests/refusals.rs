//! Every refusal, its node, and the order of the refusals.

use super::{abc, table};
use crate::record::record_bytes;
use crate::{check, judge, line, match_ends, read, rewrite, Verdict};

/// Asserts that checking a table refuses it so.
fn refused(table: &[u8], number: u8, node: usize) {
    assert_eq!(check(table), Verdict { number, node }, "{table:?}");
}

/// strong(a) as nodes.
const STRONG_A: [(u8, u8, u8); 3] = [(1, 0, 0), (16, 0, 0), (32, 1, 0)];

#[test]
fn headers() {
    let good = table(&STRONG_A);
    refused(&[], 1, 0);
    refused(&good[..5], 1, 0);
    refused(b"SVW\x02\x00\x00", 2, 0);
    refused(b"SVT\x01\x01\x00", 3, 0);
    refused(b"SVT\x00\x00\x00", 3, 0);
    refused(b"SVT\x01\x00\x00", 4, 0);
    refused(b"SVT\x01\x00\x79", 4, 0);
    refused(&good[..17], 5, 0);
    refused(&[&good[..], &[0]].concat(), 5, 0);
}

#[test]
fn bad_nodes() {
    refused(&table(&[(5, 0, 0)]), 6, 0);
    refused(&table(&[(0, 2, 0)]), 6, 0);
    refused(&table(&[(0, 1, 1)]), 6, 0);
    refused(&table(&[(1, 64, 0)]), 6, 0);
    refused(&table(&[(1, 0, 0), (16, 1, 0)]), 6, 1);
    refused(&table(&[(1, 0, 0), (16, 200, 0)]), 6, 1);
    refused(&table(&[(1, 0, 0), (16, 0, 1)]), 6, 1);
    refused(&table(&[(1, 0, 0), (32, 0, 0)]), 6, 1);
    refused(&table(&[(1, 0, 0), (16, 0, 0), (40, 1, 1)]), 6, 2);
    let mut fourth = table(&STRONG_A);
    fourth[13] = 1;
    refused(&fourth, 6, 1);
    let six_before_seven = table(&[(1, 0, 0), (16, 0, 0), (16, 0, 0), (32, 9, 0)]);
    refused(&six_before_seven, 6, 3);
}

#[test]
fn places_and_roots() {
    refused(&table(&[(1, 0, 0), (16, 0, 0), (16, 0, 0)]), 7, 1);
    refused(&table(&[(1, 0, 0), (16, 0, 0), (17, 1, 1)]), 7, 1);
    refused(&table(&[(1, 0, 0), (16, 0, 0), (0, 1, 0)]), 7, 1);
    refused(&table(&[(1, 0, 0)]), 8, 0);
    refused(&table(&[(1, 0, 0), (3, 0, 0)]), 8, 0);
    let shared = table(&[(1, 0, 0), (16, 0, 0), (16, 0, 0), (17, 1, 2)]);
    refused(&shared, 0, 0);
}

#[test]
fn hollow_sequences() {
    let hollow = [(16, 0, 0), (20, 3, 0), (16, 1, 0), (18, 4, 5)];
    for promotion in [32, 33] {
        let mut nodes = hollow.to_vec();
        nodes.push((promotion, 6, 0));
        refused(&abc(&nodes), 9, 7);
        nodes.push((40, 0, 7));
        refused(&abc(&nodes), 9, 7);
    }
    let implies = [(16, 0, 0), (20, 3, 0), (16, 1, 0), (32, 5, 0), (37, 4, 6)];
    refused(&abc(&implies), 9, 7);
    refused(&abc(&hollow), 0, 0);
    let lowest = [(16, 0, 0), (20, 3, 0), (32, 4, 0), (16, 1, 0), (20, 6, 0)];
    let mut lowest = lowest.to_vec();
    lowest.extend([(33, 7, 0), (35, 8, 5)]);
    refused(&abc(&lowest), 9, 5);
}

#[test]
fn records() {
    let good = record_bytes(&[5, 6]);
    let reading = |record: &[u8], words: usize| {
        let mut out = vec![7; words];
        let reading = read(record, &mut out);
        if !reading.verdict.accepted() {
            assert_eq!((reading.count, &out), (0, &vec![7; words]));
        }
        (reading.verdict.number, out)
    };
    assert_eq!(reading(&good, 3), (0, vec![5, 6, 7]));
    assert_eq!(reading(&good, 1).0, 15);
    assert_eq!(reading(&good[..5], 0).0, 1);
    assert_eq!(reading(b"SVT\x01\x00\x00", 0).0, 2);
    assert_eq!(reading(b"SVW\x02\x00\x40", 0).0, 3);
    assert_eq!(reading(b"SVW\x01\x00\x40", 0).0, 10);
    assert_eq!(reading(&good[..21], 0).0, 5);
    assert_eq!(reading(&[&good[..], b"\n"].concat(), 9).0, 5);
    assert_eq!(reading(b"SVW\x01\x00\x00", 0), (0, vec![]));
}

/// A property with 14 clocked letters: more than 120 nodes when rewritten.
fn too_large(root_property: bool) -> Vec<u8> {
    let mut nodes = vec![(1, 0, 0), (16, 0, 0)];
    for _ in 0..13 {
        let last = nodes.len() as u8 - 1;
        nodes.extend([(16, 0, 0), (17, last, last + 1)]);
    }
    let last = nodes.len() as u8 - 1;
    match root_property {
        true => nodes.extend([(32, last, 0), (40, 0, last + 1)]),
        false => nodes.push((22, 0, last)),
    }
    table(&nodes)
}

#[test]
fn order_of_the_judge() {
    let judged = |table: &[u8], samples: usize, words: usize| {
        let mut workspace = vec![3; words];
        let judged = judge(table, &vec![1; samples], &mut workspace);
        assert!(judged.verdict.accepted() || workspace.iter().all(|&word| word == 3));
        judged.verdict.number
    };
    assert_eq!(judged(&table(&STRONG_A[..2]), 64, 0), 12);
    assert_eq!(judged(&too_large(false), 64, 0), 12);
    assert_eq!(judged(&too_large(true), 64, 0), 13);
    assert_eq!(judged(&table(&STRONG_A), 64, 0), 10);
    assert_eq!(judged(&table(&STRONG_A), 63, 194), 11);
    assert_eq!(judged(&table(&STRONG_A), 63, 195), 0);
    assert_eq!(judged(b"", 64, 0), 1);
}

#[test]
fn order_of_match_ends() {
    let ends = |table: &[u8], samples: usize, start: usize, words: usize| {
        let mut workspace = vec![3; words];
        let ends = match_ends(table, &vec![1; samples], start, &mut workspace);
        assert!(ends.verdict.accepted() || workspace.iter().all(|&word| word == 3));
        ends.verdict.number
    };
    let a = table(&STRONG_A[..2]);
    assert_eq!(ends(&table(&STRONG_A), 64, 99, 0), 12);
    assert_eq!(ends(&too_large(true), 64, 99, 0), 12);
    assert_eq!(ends(&too_large(false), 64, 99, 0), 13);
    assert_eq!(ends(&a, 64, 99, 0), 10);
    assert_eq!(ends(&a, 2, 3, 0), 14);
    assert_eq!(ends(&a, 2, usize::MAX, 999), 14);
    assert_eq!(ends(&a, 2, 2, 129), 11);
    assert_eq!(ends(&a, 63, 63, 130), 0);
}

#[test]
fn order_of_rewriting() {
    let rewritten = |table: &[u8], bytes: usize| rewrite(table, &mut vec![0; bytes]).verdict.number;
    assert_eq!(rewritten(&too_large(true), 0), 13);
    assert_eq!(rewritten(&too_large(false), 0), 13);
    assert_eq!(rewritten(&table(&STRONG_A), 17), 15);
    assert_eq!(rewritten(&table(&STRONG_A), 18), 0);
    assert_eq!(rewritten(b"SVX", 0), 1);
}

#[test]
fn order_of_the_program() {
    let bad_record = b"SVX\x01\x00\x00";
    let with = |table: Vec<u8>| line(&[&table[..], bad_record].concat());
    assert_eq!(with(table(&STRONG_A)), "refused 2 at 0");
    assert_eq!(with(table(&STRONG_A[..2])), "refused 12 at 0");
    assert_eq!(with(too_large(true)), "refused 13 at 0");
    assert_eq!(with(table(&[(1, 0, 0), (16, 7, 0)])), "refused 6 at 1");
    assert_eq!(line(b"SVT\x01\x00\x00SVW"), "refused 4 at 0");
    assert_eq!(line(b"SVT\x01\x00\xff"), "refused 4 at 0");
    assert_eq!(line(b"SVT\x01\x00\x02\x01\x00\x00"), "refused 5 at 0");
}
