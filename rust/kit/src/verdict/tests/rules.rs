//! The levels of properties by those of their operands, as the table at the head of `decisive.rs` has them,
//! against the judge on every part and from every sample.
use super::super::satisfied;
use super::random::accepted;
use super::suffixes::level;
use crate::assertion::{Assertion, Operator};
use xistomar::{Judge, MatchEnds};

fn matches(assertion: &Assertion, samples: &[u64], node: usize, from: usize) -> MatchEnds {
    let table = assertion.part(node).table();
    let ends = Judge::new().match_ends(&table, samples, from);
    ends.unwrap()
}

/// The samples from one on at which a node looks.
fn looked_at(assertion: &Assertion, samples: &[u64], node: usize, from: usize) -> Vec<usize> {
    let ticking = match assertion.clock(node) {
        Some(clock) => satisfied(assertion, clock, samples).unwrap(),
        None => vec![true; samples.len()],
    };
    (from..samples.len()).filter(|at| ticking[*at]).collect()
}

/// The level that the table gives; none for strong and weak.
fn by_rule(assertion: &Assertion, samples: &[u64], index: usize, from: usize) -> Option<u8> {
    let node = assertion.node(index);
    let (x, y) = (usize::from(node.x), usize::from(node.y));
    let level = |node, at| level(assertion, samples, node, at);
    let looked_at = looked_at(assertion, samples, index, from);
    Some(match node.operator {
        Operator::PropertyNot => 3 - level(x, from),
        Operator::PropertyAnd => level(x, from).min(level(y, from)),
        Operator::PropertyOr => level(x, from).max(level(y, from)),
        Operator::ClockedProperty => level(y, from),
        Operator::Nexttime => {
            let next = match assertion.clock(index) {
                None => looked_at.first().map(|at| at + 1),
                Some(_) => looked_at.get(1).copied(),
            };
            next.map_or(2, |next| level(x, next))
        }
        Operator::Until => {
            let rest = |rest: u8, at: &usize| level(y, *at).max(level(x, *at).min(rest));
            looked_at.iter().rev().fold(2, rest)
        }
        Operator::Implies => {
            let matches = matches(assertion, samples, x, from);
            let most = if matches.top { 2 } else { 3 };
            let ends = matches.ends().filter(|end| *end > from);
            ends.map(|end| level(y, end - 1)).fold(most, u8::min)
        }
        derived => return derived_rule(assertion, samples, derived, (index, from)),
    })
}

/// The level that source 000's definitions of derived operators come to.
fn derived_rule(
    assertion: &Assertion,
    samples: &[u64],
    operator: Operator,
    (index, from): (usize, usize),
) -> Option<u8> {
    let node = assertion.node(index);
    let (x, y) = (usize::from(node.x), usize::from(node.y));
    let level = |node, at| level(assertion, samples, node, at);
    let looked_at = looked_at(assertion, samples, index, from);
    let later = |end: usize| looked_at.iter().copied().find(|at| *at >= end);
    let ends = |sequence| matches(assertion, samples, sequence, from).ends();
    let may_match_on = |sequence| matches(assertion, samples, sequence, from).top;
    Some(match operator {
        // one letter more, which under a clock is its next tick; where there is none, it may still come
        Operator::ImpliesNext | Operator::FollowedNext => {
            let follows = operator == Operator::FollowedNext;
            let open = may_match_on(x) || ends(x).any(|end| later(end).is_none());
            let asked = ends(x).filter_map(later).map(|at| level(y, at));
            joined(follows, open, asked)
        }
        Operator::Followed => {
            let asked = ends(x)
                .filter(|end| *end > from)
                .map(|end| level(y, end - 1));
            joined(true, may_match_on(x), asked)
        }
        Operator::Always => looked_at.iter().map(|at| level(x, *at)).fold(2, u8::min),
        Operator::Eventually => looked_at.iter().map(|at| level(x, *at)).fold(1, u8::max),
        Operator::StrongUntil => {
            let rest = |rest: u8, at: &usize| level(y, *at).max(level(x, *at).min(rest));
            looked_at.iter().rev().fold(1, rest)
        }
        Operator::StrongNexttime => {
            let next = match assertion.clock(index) {
                None => looked_at.first().map(|at| at + 1),
                Some(_) => looked_at.get(1).copied(),
            };
            next.map_or(1, |next| level(x, next))
        }
        _ => return None,
    })
}

/// The level of an implication, or of what is followed by: all of those asked, or some one of them, where
/// more may still come or may not.
fn joined(follows: bool, open: bool, asked: impl Iterator<Item = u8>) -> u8 {
    match (follows, open) {
        (false, true) => asked.fold(2, u8::min),
        (false, false) => asked.fold(3, u8::min),
        (true, true) => asked.fold(1, u8::max),
        (true, false) => asked.fold(0, u8::max),
    }
}

#[test]
fn levels_are_made_of_the_operands_levels() {
    let mut seen = std::collections::HashMap::new();
    for (assertion, samples, _) in accepted(0..16_000) {
        if samples.len() > 7 || assertion.nodes().len() > 40 {
            continue;
        }
        for index in 0..assertion.nodes().len() {
            for from in 0..=samples.len() {
                if let Some(expected) = by_rule(&assertion, &samples, index, from) {
                    let given = level(&assertion, &samples, index, from);
                    assert_eq!(given, expected, "{assertion:?} {samples:?} {index} {from}");
                    let clocked = assertion.clock(index).is_some();
                    *seen
                        .entry((assertion.node(index).operator, clocked))
                        .or_insert(0) += 1;
                }
            }
        }
    }
    // seven operators and seven derived ones, with a clock and without
    assert_eq!(seen.len(), 28);
    assert!(seen.values().all(|count| *count > 10), "{seen:?}");
}
