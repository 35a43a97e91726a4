//! P1 to P11 of docs/FORMAT.md, and the flush of examples/flush.txt. a, b, c are signals 0, 1, 2.
use super::super::ready;
use super::{check, found};
use crate::engine::Engine;

/// strong(a ##1 b), or weak
fn then(promise: u8) -> [[u8; 3]; 6] {
    [
        [1, 0, 0],
        [1, 1, 0],
        [16, 0, 0],
        [16, 1, 0],
        [17, 2, 3],
        [promise, 4, 0],
    ]
}

#[test]
fn p1_to_p4() {
    // Before any sample strong waits and weak holds. a alone leaves both open, b after it closes strong
    // at 3, and a second a leaves weak nothing to match.
    let (strong, weak) = (then(32), then(33));
    check(&strong, &[1], &[1, 1], None, (5, 0, 1));
    check(&weak, &[1], &[2, 2], None, (5, 0, 2));
    check(&strong, &[1, 2], &[1, 1, 3], Some(1), (5, 0, 3));
    assert_eq!(found(&strong, &[1, 2]).matched, Some((0, 1)));
    check(&weak, &[1, 1], &[2, 2, 0], Some(1), (5, 0, 0));
    assert_eq!(found(&weak, &[1, 1]).matched, None);
}

#[test]
fn p5_waits_for_the_sample_after_the_record() {
    // a |-> nexttime strong(b): a matches at sample 0, so strong(b) is asked from sample 1.
    let nodes = [
        [1, 0, 0],
        [1, 1, 0],
        [16, 0, 0],
        [16, 1, 0],
        [32, 3, 0],
        [38, 4, 0],
        [37, 2, 5],
    ];
    check(&nodes, &[1], &[2, 1], None, (4, 1, 1));
}

#[test]
fn p6_and_p7() {
    // strong(a) until strong(b): while a holds and b has not come only a later sample can break it; at
    // sample 1 of P7 there is neither.
    let nodes = [
        [1, 0, 0],
        [1, 1, 0],
        [16, 0, 0],
        [32, 2, 0],
        [16, 1, 0],
        [32, 4, 0],
        [39, 3, 5],
    ];
    check(&nodes, &[1, 1], &[2, 2, 2], None, (6, 0, 2));
    check(&nodes, &[1, 0], &[2, 2, 0], Some(1), (3, 1, 0));
}

#[test]
fn p8_and_p9_are_turned_round() {
    // not strong(a) and not weak(a) before any sample
    let not = |promise| [[1, 0, 0], [16, 0, 0], [promise, 1, 0], [34, 2, 0]];
    check(&not(32), &[], &[2], None, (2, 0, 1));
    check(&not(33), &[], &[1], None, (2, 0, 2));
}

#[test]
fn p10_and_p11_see_ticks_alone() {
    // @(c) strong(a ##1 b): in P10 c ticks at samples 1 and 3, with a and then b; in P11 at sample 0.
    let nodes = [
        [1, 0, 0],
        [1, 1, 0],
        [1, 2, 0],
        [16, 0, 0],
        [16, 1, 0],
        [17, 3, 4],
        [32, 5, 0],
        [40, 2, 6],
    ];
    check(&nodes, &[1, 5, 2, 6], &[1, 1, 1, 1, 3], Some(3), (6, 0, 3));
    assert_eq!(found(&nodes, &[1, 5, 2, 6]).matched, Some((0, 3)));
    check(&nodes, &[5, 2], &[1, 1, 1], None, (6, 0, 1));
}

/// always (ack |-> strong((!drop)[*1:$] ##0 strobe)), as in examples/flush.txt
const FLUSH: [[u8; 3]; 12] = [
    [1, 0, 0],
    [1, 1, 0],
    [2, 1, 0],
    [1, 2, 0],
    [16, 0, 0],
    [16, 2, 0],
    [21, 5, 0],
    [16, 3, 0],
    [18, 6, 7],
    [32, 8, 0],
    [37, 4, 9],
    [44, 10, 0],
];

/// The samples of a record in examples/.
fn flush(record: &str) -> Vec<u64> {
    let examples = concat!(env!("CARGO_MANIFEST_DIR"), "/../../examples/");
    let table = std::fs::read(format!("{examples}flush.svt")).unwrap();
    assert_eq!(table, super::table(&FLUSH));
    let record = std::fs::read(format!("{examples}{record}.svw")).unwrap();
    ready(Engine::Both, &table, &record).unwrap().1
}

#[test]
fn an_open_flush_waits_for_the_strobe_from_its_acknowledge_on() {
    check(&FLUSH, &flush("flush-open"), &[2, 2, 1, 1], None, (9, 1, 1));
}

#[test]
fn a_broken_flush_is_broken_by_the_drop_at_sample_3() {
    let samples = flush("flush-broken");
    check(&FLUSH, &samples, &[2, 2, 1, 1, 0, 0], Some(3), (9, 1, 0));
}

#[test]
fn a_good_flush_stays_open_for_the_next_acknowledge() {
    let levels = [2, 2, 1, 1, 2, 2, 2];
    check(&FLUSH, &flush("flush"), &levels, None, (11, 0, 2));
    check(&FLUSH, &flush("flush-unasked"), &[2; 4], None, (11, 0, 2));
}
