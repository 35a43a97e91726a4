//! Version 2 tables: signals that have risen or fallen since the sample before, worked out by hand from docs/FORMAT.md (Letters, words and tails).
mod files;

use files::{level, record, refused, table};
use xistomar::{Judge, Level};

/// Signal 0 has risen, has fallen.
const ROSE_A: [u8; 3] = [5, 0, 0];
const FELL_A: [u8; 3] = [6, 0, 0];

/// strong of a letter of the boolean.
fn strong(version: u16, boolean: [u8; 3]) -> Vec<u8> {
    table(version, &[boolean, [16, 0, 0], [32, 1, 0]])
}

#[test]
fn the_sample_before_the_first_is_all_zero() {
    assert_eq!(level(&strong(2, ROSE_A), &[1]), Level::Strong);
    assert_eq!(level(&strong(2, ROSE_A), &[0]), Level::Broken);
    assert_eq!(level(&strong(2, FELL_A), &[0]), Level::Broken);
}

#[test]
fn the_rows_have_the_samples_that_rise_and_fall() {
    let nodes = table(2, &[ROSE_A, FELL_A, [16, 0, 0], [32, 2, 0]]);
    let mut judge = Judge::new();
    judge.judge(&nodes, &[1, 1, 0, 0, 1, 0, 1]).unwrap();
    assert_eq!(judge.workspace()[0], 0b101_0001);
    assert_eq!(judge.workspace()[xistomar::SHARE], 0b010_0100);
    // What comes after a full record is no sample in which a signal has fallen.
    judge.judge(&nodes, &[1; 63]).unwrap();
    assert_eq!(judge.workspace()[0], 1);
    assert_eq!(judge.workspace()[xistomar::SHARE], 0);
}

#[test]
fn pairs_are_made_before_a_suffix_is_taken() {
    // strong(rose b ##1 rose b)
    let letters = [[5, 1, 0], [16, 0, 0], [16, 0, 0]];
    let nodes = [&letters[..], &[[17, 1, 2], [32, 3, 0]]].concat();
    assert_eq!(level(&table(2, &nodes), &[2, 2]), Level::Broken);

    let sequence = table(2, &[ROSE_A, [16, 0, 0]]);
    let mut judge = Judge::new();
    assert_eq!(judge.match_ends(&sequence, &[1, 1], 1).unwrap().mask, 0);
    assert_eq!(judge.match_ends(&sequence, &[0, 1], 1).unwrap().mask, 4);
}

/// @(c) strong(rose a), and its bytes when rewritten are those of @(c) strong(a) but for node 0 and the version.
#[test]
fn under_a_clock_the_sample_before_counts() {
    let clocked = |version, boolean| {
        let nodes = [boolean, [1, 2, 0], [16, 0, 0], [32, 2, 0], [40, 1, 3]];
        table(version, &nodes)
    };
    assert_eq!(level(&clocked(2, ROSE_A), &[0, 5]), Level::Strong);
    assert_eq!(level(&clocked(2, ROSE_A), &[1, 5]), Level::Broken);

    let mut page = [0; 54];
    let mut rewritten = [0; 54];
    assert_eq!(xistomar::rewrite(&clocked(1, [1, 0, 0]), &mut page), Ok(12));
    assert_eq!(
        xistomar::rewrite(&clocked(2, ROSE_A), &mut rewritten),
        Ok(12)
    );
    page[3] = 2;
    page[6..10].copy_from_slice(&[5, 0, 0, 0]);
    assert_eq!(rewritten, page);
}

#[test]
fn what_each_version_knows() {
    let check = |version, boolean| xistomar::check(&strong(version, boolean));
    assert_eq!(check(2, [1, 0, 0]), Ok(()));
    assert_eq!(check(2, [5, 63, 0]), Ok(()));
    assert_eq!(check(2, [6, 63, 0]), Ok(()));
    assert_eq!(refused(check(1, ROSE_A)), (6, 0));
    assert_eq!(refused(check(2, [5, 64, 0])), (6, 0));
    assert_eq!(refused(check(2, [6, 0, 1])), (6, 0));
    assert_eq!(refused(check(2, [7, 0, 0])), (6, 0));
    assert_eq!(check(3, ROSE_A), Ok(()));
    assert_eq!(refused(check(4, ROSE_A)), (3, 0));
    assert_eq!(refused(check(258, ROSE_A)), (3, 0));
}

#[test]
fn the_line_of_a_version_2_table() {
    let line = |version| {
        let record = record(version, &[1]);
        xistomar::line(&[strong(2, ROSE_A), record].concat())
    };
    assert_eq!(line(1), "level 3 tested yes");
    // A record stays at version 1.
    assert_eq!(line(2), "refused 3 at 0");
}
