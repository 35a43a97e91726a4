//! The baseline's expander beside the proved one: the same answers and bytes, on random tables of all versions and on damaged ones; and the same levels, rows
//! and rewritten tables of these.
mod damage;
mod numbers;
mod random;

use damage::damage;
use random::{samples, table, Random};
use std::ops::Range;
use xistomar::raw;

/// A failure prints the seed, and `case(seed)` alone repeats it.
const SEEDS: Range<u64> = 0..40000;

/// Makes some nodes of a table derived ones of the same sorts, and the table one of version 3.
fn derive(r: &mut Random, table: &mut [u8]) {
    table[3] = 3;
    let one_in = 2 + r.below(8);
    for node in table[6..].chunks_exact_mut(4) {
        if r.below(one_in) != 0 {
            continue;
        }
        let (m, n) = (r.below(4), r.below(4));
        let bounds = (m.min(n) + 16 * m.max(n)) as u8;
        (node[0], node[3]) = match node[0] {
            16 => (r.pick(&[25, 26]), m as u8),
            17..=19 => (24, bounds),
            20 | 21 => (23, bounds),
            34 | 38 => (r.pick(&[44, 45, 47]), 0),
            35 | 36 | 39 => (46, 0),
            37 => (r.pick(&[41, 42, 43]), 0),
            base => (base, 0),
        };
    }
}

/// A small table of version 1, 2 or 3, now and then a large one; and now and then damaged.
fn made(r: &mut Random) -> Vec<u8> {
    let version = 1 + r.below(2) as u8;
    let mut made = table(r, version);
    while made.len() > 6 + 4 * 14 && r.below(6) != 0 {
        made = table(r, version);
    }
    if r.below(5) != 0 {
        derive(r, &mut made);
    }
    if r.below(4) == 0 {
        damage(r, &mut made);
    }
    made
}

/// Compares both on one table, with enough bytes, just enough or one too few. Answers the number and the version.
fn case(seed: u64) -> (u8, Option<u8>) {
    let mut r = Random(seed);
    let table = made(&mut r);
    let count = raw::expand(&table, &mut [0; 486]).count;
    let room = [490, 6 + 4 * count, 5 + 4 * count][r.below(3)];
    let mut ours = vec![0xaa; room];
    let mut theirs = ours.clone();
    let our = rows::expand(&table, &mut ours);
    let their = raw::expand(&table, &mut theirs);
    let verdict = rows::Verdict {
        number: their.verdict.number,
        node: their.verdict.node,
    };
    assert_eq!(our.verdict, verdict, "seed {seed}, table {table:?}");
    assert_eq!(our.count, their.count, "seed {seed}, table {table:?}");
    assert!(ours == theirs, "bytes, seed {seed}, table {table:?}");
    if our.count > 0 {
        compare_levels(&mut r, &table);
    }
    (verdict.number, table.get(3).copied())
}

/// Judges a table by both, or has both refuse it, and rewrites it by both.
fn compare_levels(r: &mut Random, table: &[u8]) {
    let n = r.below(5);
    let samples = samples(r, n);
    let mut ours = vec![0; 65 * 120];
    let mut theirs = ours.clone();
    let our = rows::judge(table, &samples, &mut ours);
    let their = raw::judge(table, &samples, &mut theirs);
    let told = (their.verdict.number, their.level, their.tested);
    assert_eq!(
        (our.verdict.number, our.level, our.tested),
        told,
        "{table:?}"
    );
    assert!(ours == theirs, "rows, table {table:?}");
    assert!(matches!(our.verdict.number, 0 | 12 | 13), "{table:?}");
    let (mut ours, mut theirs) = ([0; 486], [0; 486]);
    let our = rows::rewrite(table, &mut ours);
    let their = raw::rewrite(table, &mut theirs);
    assert_eq!((our.count, ours), (their.count, theirs), "{table:?}");
}

#[test]
fn same_as_the_library() {
    let mut numbers = [0; 16];
    let mut versions = [0; 4];
    for seed in SEEDS {
        let (number, version) = case(seed);
        numbers[usize::from(number)] += 1;
        if let (0, Some(version @ 1..=3)) = (number, version) {
            versions[usize::from(version)] += 1;
        }
    }
    println!("numbers {numbers:?}, versions {versions:?}");
    for number in [0, 1, 2, 3, 4, 5, 6, 7, 8, 9, 13, 15] {
        assert!(numbers[number] > 20, "{number}: {numbers:?}");
    }
    assert!(versions[1] > 1000 && versions[2] > 1000 && versions[3] > 5000);
}

/// Each derived operator with every fourth byte, as the root.
#[test]
fn same_for_every_fourth_byte() {
    let [a, letter, strong] = [[1, 0, 0, 0], [16, 0, 0, 0], [32, 1, 0, 0]];
    for fourth in 0..=255 {
        for operator in (23..=26).chain(41..=47) {
            let nodes = match operator {
                25 | 26 => vec![a, [operator, 0, 0, fourth]],
                23 => vec![a, letter, [operator, 1, 0, fourth]],
                24 => vec![a, letter, letter, [operator, 1, 2, fourth]],
                44 | 45 | 47 => vec![a, letter, strong, [operator, 2, 0, fourth]],
                46 => vec![a, letter, strong, letter, [33, 3, 0, 0], [46, 2, 4, fourth]],
                _ => vec![a, letter, strong, letter, [operator, 3, 2, fourth]],
            };
            let mut table = vec![b'S', b'V', b'T', 3, 0, nodes.len() as u8];
            table.extend(nodes.concat());
            let (mut ours, mut theirs) = ([0xaa; 486], [0xaa; 486]);
            let our = rows::expand(&table, &mut ours);
            let their = raw::expand(&table, &mut theirs);
            assert_eq!(our.verdict.number, their.verdict.number, "{table:?}");
            assert_eq!((our.count, ours), (their.count, theirs), "{table:?}");
        }
    }
}
