//! The flag by sets beside the definition position by position, on random tables and every suffix of their records.
mod implications;
mod naive;
mod numbers;
mod random;

use naive::Naive;
use random::{samples, Random};
use std::ops::Range;

const SEEDS: Range<u64> = 0..8000;

/// How many suffixes of the samples do not test the table, and how many do; none where it is refused.
fn compare(seed: u64, table: &[u8], samples: &[u64]) -> [usize; 2] {
    let nodes = table[6..].as_chunks().0;
    let mut words = vec![0; 7800];
    let mut counts = [0; 2];
    for start in 0..=samples.len() {
        let suffix = &samples[start..];
        let judgement = rows::judge(table, suffix, &mut words);
        if judgement.verdict.number != 0 {
            break;
        }
        let asked = Naive::new(nodes, &words, suffix.len()).root();
        let at = format!("seed {seed}, table {table:?}, samples {suffix:?}");
        assert_eq!(judgement.tested, asked, "{at}");
        counts[usize::from(asked)] += 1;
    }
    counts
}

/// Runs every seed; there must be at least so many records of either answer.
fn as_position_by_position(made: impl Fn(&mut Random) -> Vec<u8>, least: usize) {
    let mut counts = [0; 2];
    for seed in SEEDS {
        let mut r = Random(seed);
        let table = made(&mut r);
        let n = [r.below(4), r.below(20), r.below(64), 63][r.below(4)];
        let [no, yes] = compare(seed, &table, &samples(&mut r, n));
        counts = [counts[0] + no, counts[1] + yes];
    }
    println!("not tested, tested: {counts:?}");
    assert!(counts.iter().all(|&count| count >= least));
}

#[test]
fn on_tables_of_version_1() {
    as_position_by_position(|r| random::table(r, 1), 2000);
}

#[test]
fn on_tables_of_version_2() {
    as_position_by_position(|r| random::table(r, 2), 2000);
}

#[test]
fn on_tables_of_implications() {
    as_position_by_position(implications::table, 40_000);
}
