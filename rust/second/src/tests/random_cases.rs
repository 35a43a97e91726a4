//! Checks over random cases: the definitions twice, and rows against answers.

use super::base_nodes;
use crate::count;
use crate::grow::{grown, Plan, Shape};
use crate::literal::{letters, Literal, Word};
use crate::meaning::Meaning;
use crate::node::{clocks, Node, Sort};
use crate::random::Random;
use crate::rewriting::rewritten;
use crate::table::{table_bytes, MOST_NODES};
use crate::tested::Testing;
use crate::words::Tail;
use crate::{answer, check, expand, judge, level, line, match_ends, plain_judge, random_case};
use crate::{read, rewrite};
use crate::{Answer, Case, Verdict};

const TAILS: [Tail; 3] = [Tail::Nothing, Tail::Top, Tail::Bottom];

/// The table and samples of a case that is accepted by judge or match ends.
fn accepted(seed: u64) -> Option<(Vec<Node>, Vec<u64>)> {
    let case = random_case(seed);
    let (Case::Judge { table, samples, .. } | Case::Ends { table, samples, .. }) = &case else {
        return None;
    };
    let nodes = base_nodes(table)?;
    (samples.len() <= 63).then(|| (nodes, samples.clone()))
}

/// A small table with many clocks, at times with risen and fallen signals, and
/// a short record.
fn small(random: &mut Random) -> (Vec<Node>, Vec<u64>) {
    let plan = Plan {
        version: 2,
        root: random.pick(&[Sort::Property, Sort::Property, Sort::Sequence]),
        size: random.between(2, 8),
        signals: vec![0, 1],
        edges: random.pick(&[0, 50, 90]),
        derived: 0,
        clocks: random.pick(&[5, 30, 60]),
        empties: 8,
        clocked: false,
        shape: random.pick(&[Shape::Mixed, Shape::Chain]),
        mixed_order: false,
        unused_booleans: 0,
        count: count::rewritten,
    };
    let nodes = grown(random, &plan);
    let samples = (0..random.below(4)).map(|_| random.next() & 3).collect();
    (nodes, samples)
}

#[test]
fn definitions_agree_with_the_literal_ones() {
    let random = &mut Random::new(5);
    let mut compared = [0; 41];
    for _ in 0..12_000 {
        let (nodes, samples) = small(random);
        let letters = nodes.iter().filter(|n| matches!(n, Node::Letter(_)));
        if letters.count() <= 3 {
            compare(&nodes, &samples);
            for (node, clock) in nodes.iter().zip(clocks(&nodes)) {
                let counts = clock.is_some() || node.sort() == Sort::Boolean;
                compared[usize::from(node.parts().0)] += usize::from(counts);
            }
        }
    }
    for operator in (0..=6).chain(16..=22).chain(32..=40) {
        assert!(compared[operator] > 100, "{operator}: {compared:?}");
    }
}

/// Compares both readings of the definitions on one table and record.
fn compare(nodes: &[Node], samples: &[u64]) {
    let literal = Literal {
        table: nodes,
        bound: 5,
    };
    let mut meaning = Meaning::new(nodes, samples);
    let (root, n) = (nodes.len() - 1, samples.len());
    for tail in TAILS {
        let letters = letters(samples);
        let word = Word { letters, tail };
        for i in 0..=n {
            let suffix = word.suffix(i);
            if nodes[root].sort() == Sort::Property {
                let said = literal.satisfies(root, None, &suffix);
                let context = (nodes, samples, i, tail);
                assert_eq!(said, meaning.satisfies(root, None, i, tail), "{context:?}");
                if tail == Tail::Nothing {
                    let said = literal.tested(root, None, &suffix);
                    let tested = Testing::new(&mut meaning).tested(root, None, i);
                    assert_eq!(said, tested, "{context:?}");
                }
                continue;
            }
            let ends = meaning.ends(root, None, i, tail);
            for end in i..=n + 2 {
                let Some(stretch) = suffix.prefix(end - i) else {
                    break;
                };
                let said = literal.matches(root, None, &stretch);
                assert_eq!(said, ends.contains(&end), "{nodes:?} {samples:?} {i} {end}");
            }
        }
    }
}

#[test]
fn more_letters_of_the_tail_change_nothing() {
    for seed in 0..6_000 {
        let Some((nodes, samples)) = accepted(seed) else {
            continue;
        };
        let root = nodes.len() - 1;
        let mut short = Meaning::new(&nodes, &samples);
        let mut long = Meaning::new(&nodes, &samples).with_more_letters(nodes.len());
        for i in [0, samples.len() / 2, samples.len()] {
            if nodes[root].sort() == Sort::Sequence {
                let past = |ends: &[usize]| ends.iter().any(|&end| end > samples.len());
                let said = past(&short.ends(root, None, i, Tail::Top));
                assert_eq!(said, past(&long.ends(root, None, i, Tail::Top)));
                continue;
            }
            for tail in TAILS {
                let said = short.satisfies(root, None, i, tail);
                assert_eq!(said, long.satisfies(root, None, i, tail));
            }
        }
    }
}

#[test]
fn rewriting_keeps_the_meaning() {
    for seed in 0..10_000 {
        match (random_case(seed), answer(&random_case(seed))) {
            (Case::Judge { table, samples, .. }, Answer::Judge(judged, words)) => {
                assert_eq!(
                    level_or_refusal_11(&table, &samples, judged.verdict),
                    judged
                );
                if judged.verdict.accepted() {
                    assert_eq!(plain_judge(&table, &samples), judged);
                    let row = 65 * (rewritten_count(&table) - 1);
                    let level = [2, 0, 1].map(|word: usize| words[row + word] & 1 == 1);
                    let first = level.iter().position(|&holds| holds).unwrap_or(3);
                    assert_eq!(3 - first, usize::from(judged.level));
                }
            }
            (Case::Ends { table, start, .. }, Answer::Ends(ends, words))
                if ends.verdict.accepted() =>
            {
                let row = 65 * (rewritten_count(&table) - 1);
                assert_eq!(words[row + start], ends.mask);
                assert_eq!(words[row + 64] >> start & 1 == 1, ends.top);
            }
            _ => {}
        }
    }
}

/// The level without a workspace, or refusal 11 where the judge gave it.
fn level_or_refusal_11(table: &[u8], samples: &[u64], given: Verdict) -> crate::Judgement {
    let mut judged = level(table, samples);
    if given == Verdict::refused(11) {
        assert!(judged.verdict.accepted());
        (judged.verdict, judged.level, judged.tested) = (given, 0, false);
    }
    judged
}

/// The rewritten count of an accepted table.
fn rewritten_count(table: &[u8]) -> usize {
    base_nodes(table).map_or(0, |nodes| rewritten(&nodes).len())
}

/// The rewriting of a table says what the table says where it has too many nodes
/// for a table, too: here it is only a list of nodes.
#[test]
fn rewriting_past_120_nodes_keeps_the_meaning() {
    let mut compared = 0;
    for seed in 0..2_000 {
        let Case::Plain { table, samples } = random_case(seed) else {
            continue;
        };
        let judged = plain_judge(&table, &samples);
        let Some(nodes) = base_nodes(&table) else {
            continue;
        };
        let new = rewritten(&nodes);
        if !judged.verdict.accepted() || new.len() <= MOST_NODES || samples.len() > 12 {
            continue;
        }
        let mut meaning = Meaning::new(&new, &samples);
        let from_zero = |tail| meaning.satisfies(new.len() - 1, None, 0, tail);
        let answers = [Tail::Bottom, Tail::Nothing, Tail::Top].map(from_zero);
        let first = answers.iter().position(|&holds| holds).unwrap_or(3);
        assert_eq!(
            3 - first,
            usize::from(judged.level),
            "{nodes:?} {samples:?}"
        );
        compared += 1;
    }
    assert!(compared > 50, "{compared}");
}

#[test]
fn rewriting_keeps_the_meaning_of_every_suffix() {
    for seed in 0..8_000 {
        let Some((nodes, samples)) = accepted(seed) else {
            continue;
        };
        let new = rewritten(&nodes);
        if new.len() > 120 {
            continue;
        }
        let (mut clocked, mut plain) =
            (Meaning::new(&nodes, &samples), Meaning::new(&new, &samples));
        let (root, new_root) = (nodes.len() - 1, new.len() - 1);
        for i in 0..=samples.len() {
            for tail in TAILS {
                let said = clocked.satisfies(root, None, i, tail);
                assert_eq!(said, plain.satisfies(new_root, None, i, tail));
            }
            let said = clocked.ends(root, None, i, Tail::Nothing);
            assert_eq!(said, plain.ends(new_root, None, i, Tail::Nothing));
        }
    }
}

#[test]
fn rewritten_tables_are_tables_and_stay() {
    for seed in 0..3_000 {
        let Some((nodes, _)) = accepted(seed) else {
            continue;
        };
        let once = rewritten(&nodes);
        if once.len() <= 120 {
            let bytes = table_bytes(2, &once);
            assert_eq!(check(&bytes), Verdict::ACCEPTED);
            let mut out = vec![0; 486];
            let again = rewrite(&bytes, &mut out);
            assert_eq!(again.count, once.len());
        }
    }
}

#[test]
fn no_bytes_cause_a_panic() {
    let mut random = Random::new(99);
    for _ in 0..20_000 {
        let mut bytes = match random_case(random.next()) {
            Case::Check { table } | Case::Rewrite { table, .. } => table,
            Case::Expand { table, .. } => table,
            Case::Judge { table, .. } | Case::Plain { table, .. } => table,
            Case::Ends { table, .. } => table,
            Case::Read { record, .. } => record,
            Case::Program { input } => input,
        };
        for _ in 0..random.below(3) {
            crate::damage::damage_table(&mut random, &mut bytes);
        }
        let samples = vec![random.next(); random.below(70)];
        let start = random.below(70);
        let mut words = vec![0; random.below(1000)];
        check(&bytes);
        line(&bytes);
        read(&bytes, &mut words);
        rewrite(&bytes, &mut [0; 90]);
        expand(&bytes, &mut [0; 90]);
        judge(&bytes, &samples, &mut words);
        plain_judge(&bytes, &samples);
        match_ends(&bytes, &samples, start, &mut words);
    }
}
