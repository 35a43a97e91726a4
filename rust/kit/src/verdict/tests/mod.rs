//! The verdict and its decisive part, on tables and samples worked out by hand and on random ones.
mod clocked;
mod listed;
mod objects;
mod pages;
mod random;
mod reaching;
mod rising;
mod rules;
mod said;
mod suffixes;
mod walk;

use super::decisive::{decisive, Decisive};
use super::{Account, Verdict};
use crate::assertion::{Assertion, Expanded};
use crate::engine::{Engine, Engines, Unjudged};
use crate::names::Names;
use crate::testing;

/// A table of these nodes, of version 3 where one of them is always, else of version 2 where one rises or
/// falls.
fn table(nodes: &[[u8; 3]]) -> Vec<u8> {
    let has = |known: &[u8]| nodes.iter().any(|[operator, ..]| known.contains(operator));
    match (has(&[44]), has(&[5, 6])) {
        (true, _) => testing::table_3(nodes),
        (false, true) => testing::table_2(nodes),
        (false, false) => testing::table(nodes),
    }
}

/// An assertion with its expansion.
fn expanded(assertion: &Assertion) -> Expanded {
    Expanded::of(&assertion.table()).unwrap()
}

/// The verdict of both engines; none where the plain one judges alone, which leaves no rows.
fn verdict(table: &[u8], samples: &[u64]) -> Result<Verdict, Unjudged> {
    let mut engines = Engines::of(Engine::Both, table)?;
    match engines.past() {
        Some(refusal) => Err(Unjudged::Refused(refusal)),
        None => super::verdict(&mut engines, table, samples),
    }
}

/// What is told of a table and samples by both engines.
fn account(table: &[u8], names: &Names, samples: &[u64]) -> Result<Account, Unjudged> {
    let mut engines = Engines::of(Engine::Both, table)?;
    super::account(&mut engines, table, names, samples)
}

/// The decisive part of a table's assertion.
fn found(nodes: &[[u8; 3]], samples: &[u64]) -> Decisive {
    let table = table(nodes);
    let verdict = verdict(&table, samples).unwrap();
    let assertion = Assertion::of_table(&table).unwrap();
    decisive(&expanded(&assertion), samples, &verdict).unwrap()
}

/// Asserts the level after each sample, the closing sample, and the decisive part: its node, the sample
/// from which it was asked, and its level.
fn check(
    nodes: &[[u8; 3]],
    samples: &[u64],
    levels: &[u8],
    closed: Option<usize>,
    part: (usize, usize, u8),
) {
    let verdict = verdict(&table(nodes), samples).unwrap();
    let after: Vec<u8> = verdict.levels.iter().map(|level| level.number()).collect();
    assert_eq!(after, levels, "{nodes:?} {samples:?}");
    let last = *levels.last().unwrap();
    assert_eq!(verdict.judgement.level.number(), last);
    assert_eq!(verdict.closed(), closed);
    let found = found(nodes, samples);
    let shown = (found.node, found.from, found.level.number());
    assert_eq!(shown, part, "{nodes:?} {samples:?}");
    assert_eq!(found.closed, closed);
    // the level is the assertion's, turned round under an odd number of nots
    assert_eq!(found.turned, part.2 != last);
}
