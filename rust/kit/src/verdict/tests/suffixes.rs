//! What is read off the rows, against levels that the judge answers itself. i times `nexttime` before a
//! part ask it from sample i on and leave the record whole.
use super::super::satisfied;
use super::super::suffixes::Suffixes;
use super::random::accepted;
use super::table;
use crate::assertion::{Assertion, Operator, Sort, MOST_NODES};
use xistomar::Judge;

/// A part's level from a sample on, read off the rows.
pub fn level(assertion: &Assertion, samples: &[u64], node: usize, from: usize) -> u8 {
    let table = assertion.part(node).table();
    let levels = Suffixes::of(&mut Judge::new(), &table, samples).unwrap();
    levels.level(from).number()
}

/// A part's level from a sample on, by so many `nexttime` without a clock; none where they are too many.
fn by_nexttimes(assertion: &Assertion, samples: &[u64], node: usize, from: usize) -> Option<u8> {
    let mut table = assertion.part(node).table();
    let count = (table.len() - 6) / 4;
    if count + from > MOST_NODES {
        return None;
    }
    for below in count - 1..count - 1 + from {
        table.extend([Operator::Nexttime as u8, below as u8, 0, 0]);
    }
    table[5] = (count + from) as u8;
    let judged = Judge::new().judge(&table, samples);
    Some(judged.ok()?.level.number())
}

/// The property nodes of an assertion that is small enough to ask all of them.
fn properties(assertion: &Assertion) -> Vec<usize> {
    let nodes = assertion.nodes().iter().enumerate();
    let properties = nodes.filter(|(_, node)| node.operator.sort() == Sort::Property);
    match assertion.nodes().len() {
        0..=40 => properties.map(|(index, _)| index).collect(),
        _ => Vec::new(),
    }
}

#[test]
fn the_rows_have_the_level_from_every_sample_on() {
    let mut compared = [0; 4];
    for (assertion, samples, _) in accepted(0..4_000) {
        for node in properties(&assertion) {
            for from in (0..=samples.len()).take(12) {
                let Some(asked) = by_nexttimes(&assertion, &samples, node, from) else {
                    continue;
                };
                let read = level(&assertion, &samples, node, from);
                assert_eq!(read, asked, "{assertion:?} {samples:?} {node} {from}");
                compared[usize::from(assertion.version())] += 1;
            }
        }
    }
    assert!(
        compared.iter().skip(1).all(|count| *count > 3_000),
        "{compared:?}"
    );
}

/// Nothing in a version 1 table looks at the sample before, so there the samples from one on may as well
/// be a record of their own.
#[test]
fn version_1_has_the_levels_of_the_samples_from_one_on() {
    let mut compared = 0;
    for (assertion, samples, _) in accepted(3_000..6_000) {
        if assertion.version() != 1 {
            continue;
        }
        for node in properties(&assertion) {
            let table = assertion.part(node).table();
            for from in 0..=samples.len() {
                let judged = Judge::new().judge(&table, &samples[from..]).unwrap();
                let read = level(&assertion, &samples, node, from);
                assert_eq!(read, judged.level.number(), "{assertion:?} {samples:?}");
                compared += 1;
            }
        }
    }
    assert!(compared > 5_000, "{compared}");
}

/// b, signal 1, is 1 at samples 0, 1 and 3: it rises at 0 and 3, and falls at 2.
#[test]
fn what_rises_and_falls_goes_by_the_whole_record() {
    let samples = [2, 2, 0, 2];
    let strong = |operator| {
        let nodes = [[operator, 1, 0], [16, 0, 0], [32, 1, 0]];
        Assertion::of_table(&table(&nodes)).unwrap()
    };
    let levels = |operator| [0, 1, 2, 3, 4].map(|from| level(&strong(operator), &samples, 2, from));
    // after the last sample strong waits
    assert_eq!(levels(5), [3, 0, 0, 3, 1]);
    assert_eq!(levels(6), [0, 0, 3, 0, 1]);
    assert_eq!(levels(1), [3, 3, 0, 3, 1]);
    let at = |operator| satisfied(&strong(operator), 0, &samples).unwrap();
    assert_eq!(at(5), [true, false, false, true]);
    assert_eq!(at(6), [false, false, true, false]);
    // the words of the row: bits 0 and 3, and with a tail of ⊤ bit 4
    let mut judge = Judge::new();
    Suffixes::of(&mut judge, &strong(5).table(), &samples).unwrap();
    assert_eq!(judge.workspace()[2 * 65..][..4], [9, 25, 9, 0]);
}
