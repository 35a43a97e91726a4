//! Checks of expansions over random tables of version 3.

use crate::count;
use crate::damage_derived::matching_nothing;
use crate::derived::{Bounds, Derived};
use crate::expansion::expanded;
use crate::grow::{grown_once, Plan, Shape};
use crate::hollow::{hollow_by_letters, hollow_by_tops};
use crate::meaning::Meaning;
use crate::node::{Node, Sort};
use crate::random::Random;
use crate::shrink::reached;
use crate::table::readable;
use crate::words::Tail;
use crate::{case_text, check, expand, listed, parse_case, random_case, Case, Verdict};
use std::collections::BTreeSet;

/// A small table of version 3, perhaps hollow.
fn small(random: &mut Random, root: Sort) -> Vec<Node> {
    let plan = Plan {
        version: 3,
        root,
        size: random.between(1, 6),
        signals: vec![0, 1],
        edges: 20,
        derived: random.pick(&[20, 40]),
        clocks: random.pick(&[0, 20]),
        empties: random.pick(&[0, 30]),
        clocked: false,
        shape: Shape::Mixed,
        mixed_order: random.percent(50),
        unused_booleans: 1,
        count: count::expanded,
    };
    let size = plan.size;
    let nodes = grown_once(random, &plan, size);
    match random.percent(30) {
        true => matching_nothing(random, nodes),
        false => nodes,
    }
}

/// The nodes of a table up to one of them that this one needs, renumbered.
fn rooted(nodes: &[Node], root: usize) -> Vec<Node> {
    reached(&nodes[..=root])
}

/// 9 names the lowest node whose own expansion, written out and matched letter
/// by letter, is hollow.
#[test]
fn refusal_9_is_read_on_the_expansion() {
    let random = &mut Random::new(3);
    let mut found = [0; 48];
    for _ in 0..20_000 {
        let nodes = small(random, Sort::Property);
        if nodes.len() > 60 || count::expanded(&nodes) > 300 {
            continue;
        }
        let is_hollow = |&root: &usize| {
            let expansion = expanded(&rooted(&nodes, root), 300);
            expansion.is_some_and(|nodes| hollow_by_letters(&nodes).is_some())
        };
        let literal = (0..nodes.len()).find(is_hollow);
        assert_eq!(hollow_by_tops(&nodes), literal, "{nodes:?}");
        if let Some(node) = literal {
            found[usize::from(nodes[node].parts().0)] += 1;
        }
    }
    for operator in [32, 33, 37, 41, 42, 43] {
        assert!(found[operator] > 10, "{operator}: {found:?}");
    }
}

/// How many nodes an expansion has, by the sizes of the blocks.
fn size(nodes: &[Node]) -> u128 {
    let mut sizes: Vec<u128> = Vec::new();
    for node in nodes {
        let below = |operand: usize| match nodes[operand].sort() {
            Sort::Boolean => 0,
            _ => sizes[operand],
        };
        let size = match *node {
            Node::Derived(derived) => block_size(derived, below),
            _ => node.operands().map(below).fold(1, u128::saturating_add),
        };
        sizes.push(size);
    }
    let is_boolean = |node: &&Node| node.sort() == Sort::Boolean || makes_boolean(**node);
    let booleans = nodes.iter().filter(is_boolean).count() as u128;
    booleans.saturating_add(sizes[sizes.len() - 1])
}

/// Whether the block of a node makes a boolean.
fn makes_boolean(node: Node) -> bool {
    match node.parts() {
        (24, [_, _, fourth]) => fourth != 0,
        (operator, _) => matches!(operator, 25 | 26 | 41 | 43..=46),
    }
}

/// The nodes of a block that are not booleans, with its operands.
fn block_size(derived: Derived, below: impl Fn(usize) -> u128) -> u128 {
    let sum = |own: u128, operands: &[usize]| {
        let sizes = operands.iter().map(|&operand| below(operand));
        sizes.fold(own, u128::saturating_add)
    };
    match derived {
        Derived::Times(r, bounds) => times_size(below(r), bounds),
        Derived::Delay(r, s, Bounds { n: 0, .. }) => sum(1, &[r, s]),
        Derived::Delay(r, s, Bounds { m: 0, n }) => {
            let gap = times_size(1, Bounds { m: 0, n: n - 1 });
            sum(gap + 4, &[r, s, r, s])
        }
        Derived::Delay(r, s, Bounds { m, n }) => {
            let gap = times_size(1, Bounds { m: m - 1, n: n - 1 });
            sum(gap + 2, &[r, s])
        }
        Derived::Goto(_, m) => times_size(7, Bounds { m, n: m }),
        Derived::Nonconsecutive(_, m) => times_size(7, Bounds { m, n: m }) + 6,
        Derived::ImpliesNext(r, p) => sum(3, &[r, p]),
        Derived::Followed(r, p) => sum(3, &[r, p]),
        Derived::FollowedNext(r, p) => sum(5, &[r, p]),
        Derived::Always(p) => sum(3, &[p]),
        Derived::Eventually(p) => sum(5, &[p]),
        Derived::StrongUntil(p, q) => sum(7, &[p, q, q]),
        Derived::StrongNexttime(p) => sum(3, &[p]),
    }
}

/// `R[*k]` is k + 1 times R, one `[*0]` and k times `##1`; between two of them
/// stands an or.
fn times_size(r: u128, Bounds { m, n }: Bounds) -> u128 {
    let each = (m..=n).map(|k| {
        let k = k as u128;
        r.saturating_mul(k + 1).saturating_add(k + 1)
    });
    each.fold((n - m) as u128, u128::saturating_add)
}

#[test]
fn sizes_are_those_of_the_blocks() {
    let random = &mut Random::new(8);
    for _ in 0..20_000 {
        let root = random.pick(&[Sort::Property, Sort::Sequence]);
        let nodes = small(random, root);
        let size = size(&nodes);
        let limit = 1_000;
        let expansion = expanded(&nodes, limit);
        assert_eq!(expansion.is_some(), size <= limit as u128, "{nodes:?}");
        if let Some(expansion) = expansion {
            assert_eq!(expansion.len() as u128, size, "{nodes:?}");
        }
    }
    // both sides of 13, where it is close
    for case in listed() {
        let Case::Expand { table, .. } = case else {
            continue;
        };
        let verdict = expand(&table, &mut [0; 486]).verdict;
        if table[3] == 3 && matches!(verdict.number, 0 | 13) {
            let read = readable(&table).expect("it is not refused with 6");
            assert_eq!(verdict.number == 13, size(&read.nodes) > 120);
        }
    }
}

/// An expansion is a table of version 2 that every call takes, and is its own
/// expansion.
#[test]
fn expansions_are_tables() {
    let mut accepted = 0;
    for seed in 0..20_000 {
        let Case::Expand { table, .. } = random_case(seed) else {
            continue;
        };
        let mut out = [0; 486];
        let expansion = expand(&table, &mut out);
        if expansion.verdict != Verdict::ACCEPTED {
            continue;
        }
        let written = &out[..6 + 4 * expansion.count];
        assert_eq!(check(written), Verdict::ACCEPTED);
        assert_eq!(written[3], table[3].min(2));
        let mut as_three = written.to_vec();
        as_three[3] = 3;
        let mut again = [0; 486];
        assert_eq!(expand(&as_three, &mut again).count, expansion.count);
        if table[3] == 3 {
            assert_eq!(again, out, "{table:?}");
        }
        accepted += 1;
    }
    assert!(accepted > 1_000, "{accepted}");
}

/// The ends of k matches in a row, k from m to n, of what a table's root is.
fn in_a_row(nodes: &[Node], samples: &[u64], start: usize, bounds: Bounds) -> BTreeSet<usize> {
    let mut meaning = Meaning::new(nodes, samples);
    let mut reached = BTreeSet::from([start]);
    let mut ends = BTreeSet::new();
    for k in 0..=bounds.n {
        if k >= bounds.m {
            ends.extend(&reached);
        }
        let from = std::mem::take(&mut reached);
        for start in from {
            let next = meaning.ends(nodes.len() - 1, None, start, Tail::Nothing);
            reached.extend(next.iter());
        }
    }
    ends
}

/// The expansion of a repeat matches where k matches in a row do, k from m to n.
#[test]
fn repeats_are_matches_in_a_row() {
    let random = &mut Random::new(12);
    let mut compared = 0;
    for _ in 0..4_000 {
        let nodes = small(random, Sort::Sequence);
        let n = random.below(5);
        let bounds = Bounds {
            m: random.between(0, n),
            n,
        };
        let mut repeat = nodes.clone();
        let root = nodes.len() - 1;
        repeat.push(Node::Derived(Derived::Times(root, bounds)));
        let (Some(once), Some(repeat)) = (expanded(&nodes, 400), expanded(&repeat, 400)) else {
            continue;
        };
        let samples: Vec<u64> = (0..random.below(6)).map(|_| random.next() & 3).collect();
        let mut meaning = Meaning::new(&repeat, &samples);
        for start in 0..=samples.len() {
            let ends = meaning.ends(repeat.len() - 1, None, start, Tail::Nothing);
            let ends: BTreeSet<usize> = ends.iter().copied().collect();
            assert_eq!(ends, in_a_row(&once, &samples, start, bounds), "{nodes:?}");
        }
        compared += 1;
    }
    assert!(compared > 2_000, "{compared}");
}

/// The listed cases are told apart by their text, and fit its limits.
#[test]
fn listed_cases_are_cases() {
    let texts: BTreeSet<String> = listed().iter().map(|case| case_text(0, case)).collect();
    assert!(texts.len() > 1_300, "{}", texts.len());
    for text in &texts {
        assert!(parse_case(text).is_ok(), "{text}");
    }
}
