//! The rows of sequences beside the matches by their definition, on random sequences and on records for which the ends of a start often cover those of the start above
//! it, and often do not: what a start takes over, or leaves out of its walk, shows where it should not have.
mod matches;
mod numbers;

use matches::Matches;
use numbers::Random;
use std::ops::Range;

const SEEDS: Range<u64> = 0..3000;

/// The booleans that a table begins with: 0, 1 and signals 0 to 3.
const BOOLEANS: [[u8; 4]; 6] = [
    [0, 0, 0, 0],
    [0, 1, 0, 0],
    [1, 0, 0, 0],
    [1, 1, 0, 0],
    [1, 2, 0, 0],
    [1, 3, 0, 0],
];

/// Adds a sequence, and answers its index. The constants are rarer than signals.
fn sequence(r: &mut Random, nodes: &mut Vec<[u8; 4]>, depth: usize) -> u8 {
    let op = match depth {
        0 => 16,
        _ => r.pick(&[16, 17, 17, 17, 18, 18, 18, 19, 19, 20, 21, 21, 21]),
    };
    let x = match op {
        16 => r.pick(&[0, 1, 1, 2, 2, 3, 3, 4, 5]),
        _ => sequence(r, nodes, depth - 1),
    };
    let y = match op {
        17..=19 => sequence(r, nodes, depth - 1),
        _ => 0,
    };
    nodes.push([op, x, y, 0]);
    nodes.len() as u8 - 1
}

/// Records of signals that change at random, of some that are there in one half only, and of some that come back every few samples.
fn samples(r: &mut Random, n: usize) -> Vec<u64> {
    match r.below(3) {
        0 => (0..n).map(|_| r.word() & 15).collect(),
        1 => (0..n).map(|i| if i < n / 2 { 5 } else { 10 }).collect(),
        _ => {
            let every = 2 + r.below(3);
            let bit = |i: usize, s: usize| u64::from((i + s).is_multiple_of(every)) << s;
            let all = |i| (0..4).map(|s| bit(i, s)).sum();
            (0..n).map(all).collect()
        }
    }
}

/// Word i as it should be, of the ends up to n; word 64 tells of ends behind n.
fn word(matches: &Matches, i: usize, n: usize, length: usize) -> u64 {
    match i {
        64 => (0..=n)
            .filter(|&i| (n + 1..=length).any(|j| matches.has(i, j)))
            .map(|i| 1 << i)
            .sum(),
        _ if i > n => 0,
        _ => (i..=n).filter(|&j| matches.has(i, j)).map(|j| 1 << j).sum(),
    }
}

/// How many starts have ends that cover those of the start above, where that has some, and how many have not: of the first operands of `##1` and `##0` and of the
/// operands of `[*1:$]`.
fn covers(nodes: &[[u8; 4]], words: &[u64], n: usize) -> [usize; 2] {
    let mut counts = [0; 2];
    for &[op, x, ..] in nodes {
        if !matches!(op, 17 | 18 | 21) {
            continue;
        }
        let ends = |i: usize| words[65 * usize::from(x) + i] & !(1 << i);
        for i in (0..n).filter(|&i| ends(i + 1) != 0) {
            counts[usize::from(ends(i + 1) & !ends(i) == 0)] += 1;
        }
    }
    counts
}

/// A random sequence; every other time one that goes round several ways, so that a repetition has ends which lead to different places.
fn nodes(r: &mut Random) -> Vec<[u8; 4]> {
    let mut nodes = BOOLEANS.to_vec();
    let depth = 2 + r.below(3);
    let mut top = sequence(r, &mut nodes, depth);
    if r.below(2) == 0 {
        for _ in 0..1 + r.below(3) {
            let depth = 1 + r.below(2);
            let other = sequence(r, &mut nodes, depth);
            nodes.push([19, top, other, 0]);
            top = nodes.len() as u8 - 1;
        }
        nodes.push([21, top, 0, 0]);
    }
    nodes
}

/// The table's bytes.
fn table(nodes: &[[u8; 4]]) -> Vec<u8> {
    let mut bytes = vec![b'S', b'V', b'T', 1, 0, nodes.len() as u8];
    bytes.extend(nodes.concat());
    bytes
}

/// The words that match ends leave, and the starts of the root's matches that are not empty, as strong of it tells, unless that is refused.
fn rows_of(nodes: &[[u8; 4]], samples: &[u64]) -> (Vec<u64>, Option<u64>) {
    let mut words = vec![!0; 7800];
    let ends = rows::match_ends(&table(nodes), samples, 0, &mut words);
    assert_eq!(ends.verdict.number, 0, "nodes {nodes:?}");
    let mut with_strong = nodes.to_vec();
    with_strong.push([32, nodes.len() as u8 - 1, 0, 0]);
    let mut others = vec![!0; 7800];
    let judgement = rows::judge(&table(&with_strong), samples, &mut others);
    let starts = others[65 * nodes.len()];
    (words, (judgement.verdict.number == 0).then_some(starts))
}

/// Compares every word of a table on a random record, mostly a short one; answers the counts of `covers`.
fn compare_some(r: &mut Random, seed: u64, nodes: &[[u8; 4]]) -> [usize; 2] {
    let n = [r.below(4), r.below(20), 10, 20 + r.below(2)][r.below(4)];
    let samples = samples(r, n);
    compare(seed, nodes, &samples)
}

/// Compares every word of a table on a record; answers the counts of `covers`.
fn compare(seed: u64, nodes: &[[u8; 4]], samples: &[u64]) -> [usize; 2] {
    let n = samples.len();
    let (words, starts) = rows_of(nodes, samples);
    // A match needs no more letters ⊤ than it has letters.
    let tops = nodes.iter().filter(|node| node[0] == 16).count();
    let naive = matches::of_nodes(nodes, samples, tops);
    let at = format!("seed {seed}, nodes {nodes:?}, samples {samples:?}");
    for (k, matches) in naive.iter().enumerate().skip(BOOLEANS.len()) {
        for i in 0..65 {
            let expected = word(matches, i, n, n + tops);
            assert_eq!(words[65 * k + i], expected, "{at}, node {k}, word {i}");
        }
    }
    let root = &naive[nodes.len() - 1];
    let matched = |i: &usize| (i + 1..=n).any(|j| root.has(*i, j));
    let expected = (0..=n).filter(matched).map(|i| 1 << i).sum();
    assert!(starts.is_none_or(|starts| starts == expected), "{at}");
    covers(nodes, &words, n)
}

#[test]
fn rows_are_the_matches() {
    let mut counts = [0; 2];
    for seed in SEEDS {
        let mut r = Random(seed);
        let nodes = nodes(&mut r);
        let [not, covering] = compare_some(&mut r, seed, &nodes);
        counts = [counts[0] + not, counts[1] + covering];
    }
    println!("not covering, covering: {counts:?}");
    assert!(counts.iter().all(|&count| count > 3000));
}

/// `a ##1 b[*0:$]` and `a ##0 b[*0:$]`, and the same the other way round: a letter beside what may be empty.
#[test]
fn a_letter_beside_what_may_be_empty() {
    let b_or_none = [[16, 3, 0, 0], [20, 6, 0, 0], [16, 3, 0, 0], [21, 8, 0, 0]];
    for op in [17, 18] {
        for [x, y] in [[11, 10], [10, 11]] {
            let mut nodes = BOOLEANS.to_vec();
            nodes.extend(b_or_none);
            nodes.extend([[19, 7, 9, 0], [16, 2, 0, 0], [op, x, y, 0]]);
            for seed in 0..50 {
                compare_some(&mut Random(seed), seed, &nodes);
            }
        }
    }
}

/// `(a ##0 1[*1:$] ##0 b) or (c ##0 1[*1:$] ##0 d)`, whose starts have up to 63 ends that do not cover each other, and above it `##1` and `##0` with `b or d`, and
/// `[*1:$]`: so many ends that they are looked up by fours.
#[test]
fn many_ends() {
    let mut nodes = BOOLEANS.to_vec();
    for [from, to] in [[2, 3], [4, 5]] {
        let k = nodes.len() as u8;
        nodes.extend([[16, from, 0, 0], [16, 1, 0, 0], [21, k + 1, 0, 0]]);
        nodes.extend([[16, to, 0, 0], [18, k, k + 2, 0], [18, k + 4, k + 3, 0]]);
    }
    nodes.push([19, 11, 17, 0]);
    for op in [17, 18, 21] {
        let mut nodes = nodes.clone();
        if op != 21 {
            nodes.extend([[16, 3, 0, 0], [16, 5, 0, 0], [19, 19, 20, 0]]);
        }
        nodes.push([op, 18, if op == 21 { 0 } else { 21 }, 0]);
        for seed in 0..12 {
            let mut r = Random(seed);
            let n = 40 + r.below(24);
            let sample = |_| r.word() & 15 | r.word() & 10;
            let samples: Vec<u64> = (0..n).map(sample).collect();
            compare(seed, &nodes, &samples);
        }
    }
}
