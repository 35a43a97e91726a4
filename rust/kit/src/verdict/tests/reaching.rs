//! Where parts are reached, on random tables and records: against the rules at the head of `reached.rs` taken
//! one by one, with every part asked of the library as a table of its own; and against the judge's flag.
use super::super::asked::Asked;
use super::super::awaiting::Awaiting;
use super::super::decisive::decisive;
use super::super::implications::implications;
use super::super::reached::{Reached, Reaching};
use super::expanded;
use super::random::accepted;
use crate::assertion::{Assertion, Expanded, Operator, Sort};
use crate::engine::{Engine, Engines};
use crate::names::Names;
use std::collections::HashSet;
use xistomar::{Judge, Level};

/// Where a record reaches the parts of an assertion, by the kit.
fn reached(assertion: &Assertion, samples: &[u64]) -> Reached {
    let reaching = Reaching::of(&assertion.table()).unwrap();
    reaching.reached(&mut Judge::new(), samples).unwrap()
}

/// The positions at which a node of the table is reached: those of the nodes that stand for it.
fn positions(expanded: &Expanded, reached: &Reached, node: usize) -> Vec<usize> {
    let written = 0..expanded.written().nodes().len();
    let stand = written.filter(|it| expanded.stands_for(*it) == Some(node));
    let set = stand.fold(0, |all, it| all | reached.set(it));
    (0..64).filter(|at| set >> at & 1 == 1).collect()
}

/// The same by the rules, with derived operators by rules of their own: each node with each position at
/// which it is reached, once.
struct Rules<'a> {
    assertion: &'a Assertion,
    asked: Asked<'a>,
    reached: HashSet<(usize, usize)>,
}

impl Rules<'_> {
    fn reach(&mut self, index: usize, at: usize) {
        if !self.reached.insert((index, at)) {
            return;
        }
        let node = self.assertion.node(index);
        let (x, y) = (usize::from(node.x), usize::from(node.y));
        match node.operator {
            Operator::PropertyNot => self.reach(x, at),
            Operator::PropertyAnd | Operator::PropertyOr => {
                self.reach(x, at);
                self.reach(y, at);
            }
            Operator::ClockedProperty => self.reach(y, at),
            Operator::Implies | Operator::Followed => {
                for end in self.asked.matches(x, at).unwrap().ends() {
                    if end > at {
                        self.reach(y, end - 1);
                    }
                }
            }
            // one letter more, which under a clock is its next tick
            Operator::ImpliesNext | Operator::FollowedNext => {
                for end in self.asked.matches(x, at).unwrap().ends() {
                    let later = self.asked.positions(index, end).unwrap();
                    later
                        .first()
                        .into_iter()
                        .for_each(|next| self.reach(y, *next));
                }
            }
            Operator::Nexttime | Operator::StrongNexttime => {
                let ticks = self.asked.positions(index, at).unwrap();
                match self.assertion.clock(index) {
                    None if at < self.asked.count() => self.reach(x, at + 1),
                    Some(_) if ticks.len() > 1 => self.reach(x, ticks[1]),
                    _ => {}
                }
            }
            Operator::Until => {
                let samples = self.asked.positions(index, at).unwrap();
                self.until((x, y), samples);
            }
            Operator::Always => self.run(index, x, at, false),
            Operator::Eventually => self.run(index, x, at, true),
            Operator::StrongUntil => {
                let samples = self.asked.positions(index, at).unwrap();
                self.until((x, y), samples);
                self.run(index, y, at, true);
            }
            _ => {}
        }
    }

    /// Reaches a property at each sample from one on, up to the first where it holds or does not.
    fn run(&mut self, index: usize, property: usize, at: usize, until_it_holds: bool) {
        for sample in self.asked.positions(index, at).unwrap() {
            self.reach(property, sample);
            if self.holds(property, sample) == until_it_holds {
                break;
            }
        }
    }

    fn until(&mut self, (p, q): (usize, usize), samples: Vec<usize>) {
        for sample in samples {
            self.reach(p, sample);
            self.reach(q, sample);
            if !self.holds(p, sample) || self.holds(q, sample) {
                break;
            }
        }
    }

    fn holds(&mut self, node: usize, at: usize) -> bool {
        self.asked.level(node, at).unwrap() >= Level::Neutral
    }
}

fn by_rules(assertion: &Assertion, samples: &[u64]) -> HashSet<(usize, usize)> {
    let mut rules = Rules {
        assertion,
        asked: Asked::new(assertion, samples, samples.len()),
        reached: HashSet::new(),
    };
    rules.reach(assertion.root(), 0);
    rules.reached
}

/// The property nodes.
fn properties(assertion: &Assertion) -> impl Iterator<Item = (usize, Operator)> + '_ {
    let nodes = assertion.nodes().iter().map(|node| node.operator);
    let nodes = nodes.enumerate();
    nodes.filter(|(_, operator)| operator.sort() == Sort::Property)
}

#[test]
fn parts_are_reached_as_the_rules_say() {
    let (mut inside, mut at_end, mut never) = (0, 0, 0);
    let mut derived = 0;
    for (assertion, samples, _) in accepted(0..12_000) {
        let (reached, rules) = (
            reached(&assertion, &samples),
            by_rules(&assertion, &samples),
        );
        let expanded = expanded(&assertion);
        for (node, operator) in properties(&assertion) {
            let expected = (0..=samples.len()).filter(|at| rules.contains(&(node, *at)));
            let expected: Vec<usize> = expected.collect();
            assert_eq!(
                positions(&expanded, &reached, node),
                expected,
                "{assertion:?} {samples:?} {node}"
            );
            derived += usize::from(operator.is_derived() && !expected.is_empty());
            inside += usize::from(expected.iter().any(|at| *at < samples.len()));
            at_end += usize::from(expected.contains(&samples.len()));
            never += usize::from(expected.is_empty());
        }
    }
    assert!(
        inside > 5_000 && at_end > 1_000 && never > 1_000 && derived > 500,
        "{inside} {at_end} {never} {derived}"
    );
}

#[test]
fn every_implication_is_asked_where_each_right_side_is_reached() {
    let mut seen = [0; 2];
    for (assertion, samples, verdict) in accepted(0..12_000) {
        let rules = by_rules(&assertion, &samples);
        let implications = properties(&assertion).filter(|(_, it)| it.is_implication());
        let asked = implications.map(|(node, _)| {
            let right = usize::from(assertion.node(node).y);
            rules.iter().any(|(reached, _)| *reached == right)
        });
        let asked: Vec<bool> = asked.collect();
        let reaching = Reaching::of(&assertion.table()).unwrap();
        let mut engines = Engines::of(Engine::Both, &assertion.table()).unwrap();
        let judged = reaching.judged(&mut engines, &samples).unwrap();
        assert_eq!(judged.judgement, verdict.judgement);
        let every = !asked.contains(&false);
        assert_eq!(judged.asked, Some(every), "{assertion:?} {samples:?}");
        seen[usize::from(every)] += usize::from(!asked.is_empty());
    }
    assert!(seen.iter().all(|count| *count > 300), "{seen:?}");
}

/// All matches of the left side of a `|=>` or `#=#`, as it was written, from some samples on.
fn matched(
    assertion: &Assertion,
    samples: &[u64],
    node: usize,
    from: &[usize],
) -> Option<Awaiting> {
    let left = usize::from(assertion.node(node).x);
    let mut asked = Asked::new(assertion, samples, samples.len());
    let matches = from.iter().flat_map(|from| {
        let ends = asked.matches(left, *from).unwrap().ends();
        ends.map(|end| (*from, end)).collect::<Vec<_>>()
    });
    Awaiting::of(matches, assertion.clock(node).is_some())
}

#[test]
fn what_matched_and_was_never_asked_is_awaited() {
    let (mut listed, mut parts) = ([0; 2], [0; 2]);
    for (assertion, samples, verdict) in accepted(0..20_000) {
        let all = implications(&assertion.table(), &Names::none(), &samples).unwrap();
        for it in all {
            if it.operator.asks_later() && !it.asked() {
                let expected = matched(&assertion, &samples, it.node, &it.reached);
                assert_eq!(it.awaiting, expected, "{assertion:?} {samples:?}");
                listed[usize::from(expected.is_some())] += 1;
            }
        }
        let part = decisive(&expanded(&assertion), &samples, &verdict).unwrap();
        let operator = assertion.node(part.node).operator;
        if operator.asks_later() && !part.asked {
            let samples = &samples[..part.closed.map_or(samples.len(), |sample| sample + 1)];
            let expected = matched(&assertion, samples, part.node, &[part.from]);
            assert_eq!(part.awaiting, expected, "{assertion:?} {samples:?}");
            parts[usize::from(expected.is_some())] += 1;
        }
    }
    let seen = listed.iter().chain(&parts);
    assert!(
        seen.clone().all(|count| *count > 20),
        "{listed:?} {parts:?}"
    );
}

/// docs/FORMAT.md, Tested: strong and weak are tested, and every other property where one of them is reached; those
/// among them that derived operators are written out to.
#[test]
fn a_record_tests_an_assertion_where_it_reaches_strong_or_weak() {
    let mut seen = [0; 2];
    for (assertion, samples, verdict) in accepted(0..20_000) {
        let reached = reached(&assertion, &samples);
        let promise = |operator| matches!(operator, Operator::Strong | Operator::Weak);
        let expanded = expanded(&assertion);
        let tested = properties(expanded.written())
            .any(|(node, operator)| promise(operator) && reached.set(node) != 0);
        assert_eq!(
            verdict.judgement.tested, tested,
            "{assertion:?} {samples:?}"
        );
        seen[usize::from(tested)] += 1;
    }
    assert!(seen.iter().all(|count| *count > 300), "{seen:?}");
}
