//! The examples of docs/FORMAT.md, and the small cases that catch a slip. a, b, c are signals 0, 1, 2.
mod clocked;
mod tables;

use clocked::{clocked, unclocked};
use rows::{check, judge, match_ends, rewrite, Verdict};
use tables::{node, A, B, C};

/// A table of version 1.
fn table(nodes: &[[u8; 4]]) -> Vec<u8> {
    tables::table(1, nodes)
}

fn level(nodes: &[[u8; 4]], samples: &[u64]) -> u8 {
    tables::level(1, nodes, samples)
}

/// strong or weak of a ##1 b.
fn one_after_the_other(op: u8) -> [[u8; 4]; 6] {
    [
        A,
        B,
        node(16, 0, 0),
        node(16, 1, 0),
        node(17, 2, 3),
        node(op, 4, 0),
    ]
}

#[test]
fn p1_to_p4_strong_and_weak() {
    assert_eq!(level(&one_after_the_other(32), &[1]), 1);
    assert_eq!(level(&one_after_the_other(33), &[1]), 2);
    assert_eq!(level(&one_after_the_other(32), &[1, 2]), 3);
    assert_eq!(level(&one_after_the_other(33), &[1, 1]), 0);
}

#[test]
fn p5_implication() {
    let nodes = [
        A,
        B,
        node(16, 0, 0),
        node(16, 1, 0),
        node(32, 3, 0),
        node(38, 4, 0),
        node(37, 2, 5),
    ];
    assert_eq!(level(&nodes, &[1]), 1);
    assert!(judge(&table(&nodes), &[1], &mut [0; 7800]).tested);
    assert!(!judge(&table(&nodes), &[2], &mut [0; 7800]).tested);
}

#[test]
fn p6_and_p7_until() {
    let nodes = [
        A,
        B,
        node(16, 0, 0),
        node(32, 2, 0),
        node(16, 1, 0),
        node(32, 4, 0),
        node(39, 3, 5),
    ];
    assert_eq!(level(&nodes, &[1, 1]), 2);
    assert_eq!(level(&nodes, &[1, 0]), 0);
}

#[test]
fn p8_and_p9_not() {
    let not = |op| [A, node(16, 0, 0), node(op, 1, 0), node(34, 2, 0)];
    assert_eq!(level(&not(32), &[]), 2);
    assert_eq!(level(&not(33), &[]), 1);
}

#[test]
fn p10_and_p11_clocks() {
    let nodes = [
        A,
        B,
        C,
        node(16, 0, 0),
        node(16, 1, 0),
        node(17, 3, 4),
        node(32, 5, 0),
        node(40, 2, 6),
    ];
    assert_eq!(level(&nodes, &[1, 5, 2, 6]), 3);
    assert_eq!(level(&nodes, &[5, 2]), 1);
}

#[test]
fn p12_match_ends() {
    let nodes = table(&[A, node(16, 0, 0), node(21, 1, 0)]);
    let ends = match_ends(&nodes, &[1, 1, 2], 0, &mut [0; 195]);
    assert_eq!((ends.mask, ends.top), (6, false));
}

#[test]
fn a_table_and_its_refusal() {
    let whole = [
        0x53, 0x56, 0x54, 1, 0, 3, 1, 0, 0, 0, 0x10, 0, 0, 0, 0x20, 1, 0, 0,
    ];
    assert_eq!(table(&[A, node(16, 0, 0), node(32, 1, 0)]), whole);
    assert_eq!(check(&whole), Verdict::default());
    let hollow = table(&[A, node(16, 0, 0), node(20, 1, 0), node(32, 2, 0)]);
    assert_eq!(check(&hollow), Verdict { number: 9, node: 3 });
}

#[test]
fn sixty_three_samples_are_judged() {
    let nodes = table(&one_after_the_other(32));
    let number = |n| judge(&nodes, &vec![1; n], &mut [0; 7800]).verdict.number;
    assert_eq!((number(63), number(64)), (0, 10));
}

#[test]
fn rewriting_a_clock_away() {
    let mut out = [9; 57];
    assert_eq!(rewrite(&table(&clocked(A)), &mut out).count, 12);
    assert_eq!(out[..54], table(&unclocked(A)));
    assert_eq!(out[54..], [9, 9, 9]);
}

#[test]
fn slips() {
    let a_letter = node(16, 0, 0);
    // A ⊤ letter satisfies the constant 0 too.
    assert_eq!(level(&[node(0, 0, 0), a_letter, node(32, 1, 0)], &[]), 1);
    // An empty match never counts for the left of |->.
    let nodes = [
        B,
        a_letter,
        a_letter,
        node(20, 2, 0),
        node(19, 1, 3),
        a_letter,
        node(33, 5, 0),
        node(37, 4, 6),
    ];
    assert_eq!(level(&nodes, &[4, 2, 2, 1]), 3);
    // The nearest clock wins: @(a) @(!a) weak(a).
    let nodes = [
        A,
        node(2, 0, 0),
        a_letter,
        node(33, 2, 0),
        node(40, 1, 3),
        node(40, 0, 4),
    ];
    assert_eq!(level(&nodes, &[0]), 0);
    // The repetition of an empty match is an empty match: strong(b[*0][*1:$] ##1 a).
    let nodes = [
        A,
        B,
        node(16, 1, 0),
        node(20, 2, 0),
        node(21, 3, 0),
        a_letter,
        node(17, 4, 5),
        node(32, 6, 0),
    ];
    assert_eq!(level(&nodes, &[1]), 3);
}
