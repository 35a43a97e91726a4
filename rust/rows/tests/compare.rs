//! The baseline beside the proved library: the same answers, bytes and words, on random tables, damaged tables and records.
mod damage;
mod numbers;
mod random;

use damage::damage;
use random::{samples, table, Random};
use std::ops::Range;
use xistomar::raw;

/// A failure prints the seed, and `case(version, seed)` alone repeats it.
const SEEDS: Range<u64> = 0..12000;

/// More words than any table owns: the later ones have to stay.
const WORDS: usize = 65 * 120 + 3;

fn verdict(v: raw::Verdict) -> rows::Verdict {
    rows::Verdict {
        number: v.number,
        node: v.node,
    }
}

fn compare_check(seed: u64, table: &[u8]) {
    assert_eq!(
        rows::check(table),
        verdict(raw::check(table)),
        "check, seed {seed}, table {table:?}"
    );
}

fn compare_rewrite(seed: u64, table: &[u8], room: usize) {
    let mut ours = vec![0xaa; room];
    let mut theirs = ours.clone();
    let our = rows::rewrite(table, &mut ours);
    let their = raw::rewrite(table, &mut theirs);
    let their = rows::Rewriting {
        verdict: verdict(their.verdict),
        count: their.count,
    };
    assert_eq!(our, their, "rewrite, seed {seed}, table {table:?}");
    assert!(ours == theirs, "bytes, seed {seed}, table {table:?}");
}

/// Answers the number of the verdict and the level.
fn compare_judge(seed: u64, table: &[u8], samples: &[u64], words: usize) -> (u8, u8) {
    let mut ours = vec![seed ^ 0x5555; words];
    let mut theirs = ours.clone();
    let our = rows::judge(table, samples, &mut ours);
    let their = raw::judge(table, samples, &mut theirs);
    let their = rows::Judgement {
        verdict: verdict(their.verdict),
        level: their.level,
        tested: their.tested,
    };
    assert_eq!(our, their, "judge, seed {seed}, table {table:?}");
    assert!(ours == theirs, "rows, seed {seed}, table {table:?}");
    (our.verdict.number, our.level)
}

fn compare_ends(seed: u64, table: &[u8], samples: &[u64], start: usize, words: usize) -> u8 {
    let mut ours = vec![seed ^ 0x5555; words];
    let mut theirs = ours.clone();
    let our = rows::match_ends(table, samples, start, &mut ours);
    let their = raw::match_ends(table, samples, start, &mut theirs);
    let their = rows::MatchEnds {
        verdict: verdict(their.verdict),
        mask: their.mask,
        top: their.top,
    };
    assert_eq!(our, their, "ends, seed {seed}, table {table:?}");
    assert!(ours == theirs, "rows, seed {seed}, table {table:?}");
    our.verdict.number
}

/// One random case of a table's version. Now and then the room, the words, the samples or the start are just about at their limit. Answers the number of
/// each verdict, and the level.
fn case(version: u8, seed: u64) -> (u8, u8, u8) {
    let mut r = Random(seed);
    let mut table = table(&mut r, version);
    if r.below(3) == 0 {
        damage(&mut r, &mut table);
    }
    let n = [r.below(4), r.below(66), 63, 62][r.below(4)];
    let samples = samples(&mut r, n);
    let m = raw::rewrite(&table, &mut [0; 486]).count;
    let room = [486, 6 + 4 * m, 5 + 4 * m][r.below(3)];
    let words = [WORDS, WORDS, 65 * m, (65 * m).saturating_sub(1)][r.below(4)];
    let start = r.below(n + 2);
    compare_check(seed, &table);
    compare_rewrite(seed, &table, room);
    let (judged, level) = compare_judge(seed, &table, &samples, words);
    let ended = compare_ends(seed, &table, &samples, start, words);
    (judged, ended, level)
}

/// Runs every seed on tables of the version.
fn same_as_the_library(version: u8) {
    let mut numbers = [0; 16];
    let mut levels = [0; 4];
    for seed in SEEDS {
        let (judged, ended, level) = case(version, seed);
        numbers[usize::from(judged)] += 1;
        numbers[usize::from(ended)] += 1;
        if judged == 0 {
            levels[usize::from(level)] += 1;
        }
    }
    // The cases are worth running only where they meet every level, and every refusal of the judge and of match ends.
    println!("numbers {numbers:?}, levels {levels:?}");
    assert!(numbers[..15].iter().all(|&count| count > 0));
    assert!(levels.iter().all(|&count| count > 0));
}

#[test]
fn same_on_tables_of_version_1() {
    same_as_the_library(1);
}

#[test]
fn same_on_tables_of_version_2() {
    same_as_the_library(2);
}
