//! Version 2 beside the proved library's version 1. On a record with a signal that is set where another has risen, and one where it has fallen, nodes 5 and 6 ask
//! what nodes of these signals ask: the answers, the bytes and every word have to be the same.
mod numbers;
mod random;

use random::{samples, table, Random};
use std::ops::Range;
use xistomar::raw;

const SEEDS: Range<u64> = 0..6000;

/// The signals of a record, and the first of those that are set where they have risen, and where they have fallen.
const SIGNALS: u8 = 16;
const ROSE: u8 = SIGNALS;
const FELL: u8 = 2 * SIGNALS;

const SIGNAL: u8 = 1;
const RISEN: u8 = 5;
const FALLEN: u8 = 6;

/// The table of a version, with each node changed.
fn changed(table: &[u8], version: u8, node: impl Fn([u8; 4]) -> [u8; 4]) -> Vec<u8> {
    let (heading, nodes) = table.split_at(6);
    let mut bytes = heading.to_vec();
    bytes[3] = version;
    bytes.extend(nodes.as_chunks().0.iter().flat_map(|&n| node(n)));
    bytes
}

/// The table with none but the first signals.
fn narrowed(table: &[u8]) -> Vec<u8> {
    changed(table, 2, |[op, x, y, fourth]| match op {
        SIGNAL | RISEN | FALLEN => [op, x % SIGNALS, y, fourth],
        _ => [op, x, y, fourth],
    })
}

/// The table of version 1 that has signals for what has risen and fallen.
fn by_signals(table: &[u8]) -> Vec<u8> {
    changed(table, 1, |[op, x, y, fourth]| match op {
        RISEN => [SIGNAL, ROSE + x, y, fourth],
        FALLEN => [SIGNAL, FELL + x, y, fourth],
        _ => [op, x, y, fourth],
    })
}

/// The samples with those signals, one pair of samples after the other.
fn with_signals(samples: &[u64]) -> Vec<u64> {
    let mut before = 0;
    let mut add = |&sample: &u64| {
        let risen = sample & !before;
        let fallen = before & !sample;
        before = sample;
        sample | risen << ROSE | fallen << FELL
    };
    samples.iter().map(&mut add).collect()
}

fn compare_rewrite(seed: u64, table: &[u8]) {
    let mut ours = [0; 486];
    let mut theirs = [0; 486];
    let our = rows::rewrite(table, &mut ours);
    let their = raw::rewrite(&by_signals(table), &mut theirs);
    assert_eq!(our.count, their.count, "seed {seed}, table {table:?}");
    if our.count > 0 {
        let bytes = 6 + 4 * our.count;
        assert_eq!(ours[3], 2, "version, seed {seed}, table {table:?}");
        assert_eq!(
            by_signals(&ours[..bytes]),
            theirs[..bytes],
            "bytes, seed {seed}, table {table:?}"
        );
    }
}

/// Whether the table was judged.
fn compare_judge(seed: u64, table: &[u8], samples: &[u64]) -> bool {
    let mut ours = [seed; 7800];
    let mut theirs = ours;
    let our = rows::judge(table, samples, &mut ours);
    let their = raw::judge(&by_signals(table), &with_signals(samples), &mut theirs);
    assert_eq!(
        (our.verdict.number, our.verdict.node, our.level, our.tested),
        (
            their.verdict.number,
            their.verdict.node,
            their.level,
            their.tested
        ),
        "judge, seed {seed}, table {table:?}"
    );
    assert!(ours == theirs, "rows, seed {seed}, table {table:?}");
    our.verdict.number == 0
}

/// Whether the matches were asked for.
fn compare_ends(seed: u64, table: &[u8], samples: &[u64], start: usize) -> bool {
    let our = rows::match_ends(table, samples, start, &mut [0; 7800]);
    let their = raw::match_ends(
        &by_signals(table),
        &with_signals(samples),
        start,
        &mut [0; 7800],
    );
    assert_eq!(
        (our.verdict.number, our.mask, our.top),
        (their.verdict.number, their.mask, their.top),
        "ends, seed {seed}, table {table:?}"
    );
    our.verdict.number == 0
}

#[test]
fn same_as_signals_of_their_own() {
    let (mut judged, mut ended) = (0, 0);
    for seed in SEEDS {
        let mut r = Random(seed);
        let table = narrowed(&table(&mut r, 2));
        let n = [r.below(4), r.below(64), 63][r.below(3)];
        let mut samples = samples(&mut r, n);
        samples.iter_mut().for_each(|s| *s &= (1 << SIGNALS) - 1);
        compare_rewrite(seed, &table);
        judged += usize::from(compare_judge(seed, &table, &samples));
        ended += usize::from(compare_ends(seed, &table, &samples, r.below(n + 1)));
    }
    println!("judged {judged}, ended {ended}");
    assert!(judged > 1000 && ended > 500);
}
