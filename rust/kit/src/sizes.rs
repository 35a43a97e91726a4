//! How many nodes an assertion has once its derived operators are written out, part by part.
//!
//! docs/BLOCKS.md has the nodes of each operator. The count that decides is the proved expander's; this one
//! tells people what to shorten, at any size.
use crate::assertion::{Assertion, Node, Operator, Sort, MOST_NODES};
use crate::names::Names;
use crate::notation;
use crate::words;
use std::cmp::Reverse;

/// The parts that are listed, at most, and the characters of each.
const LISTED: usize = 8;
const SHOWN: usize = 60;

/// A number that is not told exactly any more.
const VAST: u128 = 1_000_000;

/// What an assertion is written out to.
#[derive(Clone, Debug)]
pub struct Sizes {
    /// The booleans: its own, and those that derived operators make.
    pub booleans: u128,
    /// All nodes.
    pub all: u128,
    /// For each node how many nodes it is written out to at one place, with all below it and without booleans,
    /// and at how many places it is written.
    parts: Vec<(u128, u128)>,
}

impl Sizes {
    /// Counts an accepted assertion.
    pub fn of(assertion: &Assertion) -> Sizes {
        let nodes = assertion.nodes();
        let mut once: Vec<u128> = Vec::with_capacity(nodes.len());
        for node in nodes {
            let [x, y] = [node.x, node.y].map(|it| once.get(usize::from(it)).copied());
            once.push(written(*node, x.unwrap_or(0), y.unwrap_or(0)));
        }
        let boolean = |node: &&Node| is_boolean(node) || makes_boolean(node);
        let booleans = nodes.iter().filter(boolean).count() as u128;
        let root = once.last().copied().unwrap_or(0);
        Sizes {
            booleans,
            all: booleans.saturating_add(root),
            parts: once.into_iter().zip(places(assertion)).collect(),
        }
    }

    /// Whether it is more than a table may have.
    pub fn past(&self) -> bool {
        self.all > MOST_NODES as u128
    }

    /// `written out it has 163 nodes, and 120 is the most`.
    pub fn words(&self) -> String {
        let all = number(self.all);
        format!("written out it has {all} nodes, and {MOST_NODES} is the most")
    }

    /// What is counted, a line for each part with a derived operator, the largest first, how many parts are left
    /// out, and a line for the booleans.
    pub fn lines(&self, assertion: &Assertion, names: &Names) -> String {
        let derived = assertion.nodes().iter().zip(&self.parts).enumerate();
        let derived = derived.filter(|(_, (node, _))| node.operator.is_derived());
        let mut parts: Vec<(u128, usize, String)> = derived
            .map(|(index, (_, (once, places)))| {
                let count = once.saturating_mul(*places);
                (count, index, at_places(*once, *places))
            })
            .collect();
        parts.sort_by_key(|(count, index, _)| (Reverse(*count), *index));
        let mut lines = COUNTED.to_string();
        for (count, index, places) in parts.iter().take(LISTED) {
            let part = notation::phrase(assertion, *index, names);
            let part = words::cut(&part, SHOWN);
            lines.push_str(&line(&number(*count), &format!("{part}{places}")));
        }
        if let Some(more) = parts.len().checked_sub(LISTED).filter(|more| *more > 0) {
            let more = words::count(more, "more part");
            lines.push_str(&line("", &format!("and {more}")));
        }
        lines + &line(&number(self.booleans), "booleans") + &evenly(assertion)
    }
}

/// What to write for a long range, the first that there is: written out it has each of its numbers by itself.
fn evenly(assertion: &Assertion) -> String {
    let even = |node: &Node| {
        let (m, n) = node.bounds();
        match node.operator {
            Operator::Times => notation::even_times(m, n),
            Operator::Delay => notation::even_delay(m, n),
            _ => None,
        }
    };
    let first = assertion.nodes().iter().find_map(even);
    first.map_or(String::new(), |(range, even)| {
        format!("`{range}` grows with the square of its numbers; `{even}` says the same, and grows evenly.\n")
    })
}

/// What the number of each part counts.
const COUNTED: &str =
    "One of these parts is to be shortened. Each is told with its nodes at all its places, all that stands in it \
     included:\n";

/// `  (24 at each of 9 places)`; nothing where there is one place.
fn at_places(once: u128, places: u128) -> String {
    match places {
        0 | 1 => String::new(),
        _ => {
            let [once, places] = [once, places].map(number);
            format!("  ({once} at each of {places} places)")
        }
    }
}

/// What to say of a table that is accepted and has too many nodes once it is written out: how many, and then
/// the parts.
pub fn past(table: &[u8], names: &Names) -> Option<(String, String)> {
    let assertion = Assertion::of_table(table).ok()?;
    let sizes = Sizes::of(&assertion);
    let words = || (sizes.words(), sizes.lines(&assertion, names));
    sizes.past().then(words)
}

fn line(count: &str, what: &str) -> String {
    format!("{count:>10}  {what}\n")
}

fn number(count: u128) -> String {
    match count > VAST {
        true => "1,000,000+".to_string(),
        false => count.to_string(),
    }
}

fn is_boolean(node: &Node) -> bool {
    node.operator.sort() == Sort::Boolean
}

/// Whether a node is written out with a boolean of its own.
fn makes_boolean(node: &Node) -> bool {
    match node.operator {
        Operator::Delay => node.fourth != 0,
        Operator::Goto | Operator::Nonconsecutive => true,
        Operator::ImpliesNext | Operator::FollowedNext => true,
        Operator::Always | Operator::Eventually | Operator::StrongUntil => true,
        _ => false,
    }
}

/// The nodes of one place of a node, from those of its operands; a boolean has none of its own.
fn written(node: Node, x: u128, y: u128) -> u128 {
    let (m, n) = node.bounds();
    let plus = |more: u128| x.saturating_add(y).saturating_add(more);
    match node.operator {
        _ if is_boolean(&node) => 0,
        Operator::Times => times(x, m, n),
        Operator::Delay => delay(x, y, m, n),
        Operator::Goto => times(GROUP, m, m),
        Operator::Nonconsecutive => times(GROUP, m, m) + WAITS + 1,
        Operator::ImpliesNext | Operator::Followed => plus(3),
        Operator::FollowedNext => plus(5),
        Operator::Always | Operator::StrongNexttime => x.saturating_add(3),
        Operator::Eventually => x.saturating_add(5),
        Operator::StrongUntil => plus(7).saturating_add(y),
        operator => {
            let operands = [x, y].into_iter().take(operator.operands().len());
            operands.fold(1, u128::saturating_add)
        }
    }
}

/// `!b[*0:$]`, and with `##1 b` the group of `b[->m]`.
const WAITS: u128 = 5;
const GROUP: u128 = WAITS + 2;

/// How often `[*m:n]` writes what it repeats.
fn copies(m: u8, n: u8) -> u128 {
    (m..=n).map(|k| u128::from(k) + 1).sum()
}

fn times(x: u128, m: u8, n: u8) -> u128 {
    let repeated = x.saturating_add(1).saturating_mul(copies(m, n));
    repeated.saturating_add(u128::from(n.saturating_sub(m)))
}

fn delay(x: u128, y: u128, m: u8, n: u8) -> u128 {
    let sides = x.saturating_add(y);
    let gap = || times(1, m.saturating_sub(1), n.saturating_sub(1));
    match (m, n) {
        (_, 0) => sides.saturating_add(1),
        (0, _) => sides.saturating_mul(2).saturating_add(gap() + 4),
        _ => sides.saturating_add(gap() + 2),
    }
}

/// How often each sequence and property is written.
fn places(assertion: &Assertion) -> Vec<u128> {
    let nodes = assertion.nodes();
    let mut places = vec![0u128; nodes.len()];
    if let Some(root) = places.last_mut() {
        *root = 1;
    }
    for (index, node) in nodes.iter().enumerate().rev() {
        let own = places.get(index).copied().unwrap_or(0);
        for (place, operand) in node.operands().enumerate() {
            if let Some(count) = places.get_mut(operand) {
                *count = count.saturating_add(own.saturating_mul(factor(*node, place)));
            }
        }
    }
    places
}

/// How often a node writes one of its operands.
fn factor(node: Node, place: usize) -> u128 {
    match (node.operator, node.bounds(), place) {
        (Operator::Times, (m, n), _) => copies(m, n),
        (Operator::Delay, (0, 1..), _) => 2,
        (Operator::StrongUntil, _, 1) => 2,
        _ => 1,
    }
}

#[cfg(test)]
mod tests {
    use super::*;
    use second::{listed, random_case, Case};

    /// The count is that of the proved expander, or too large where it refuses with 13.
    #[test]
    fn sizes_are_the_expanders() {
        let mut seen = [0; 2];
        let random = (0..12_000).map(random_case);
        for case in listed().into_iter().chain(random) {
            let Case::Expand { table, .. } = case else {
                continue;
            };
            let Ok(assertion) = Assertion::of_table(&table) else {
                continue;
            };
            let sizes = Sizes::of(&assertion);
            match xistomar::expanded(&table) {
                Ok(expansion) => assert_eq!(sizes.all, u128::from(expansion[5]), "{assertion:?}"),
                Err(refusal) => assert_eq!((refusal.number(), sizes.past()), (13, true)),
            }
            seen[usize::from(sizes.past())] += 1;
        }
        assert!(seen[0] > 800 && seen[1] > 100, "{seen:?}");
    }

    fn told(assertion: &str) -> (String, String) {
        let read = notation::read(&format!("signals a b c\n{assertion}")).unwrap();
        past(&read.assertion.table(), &read.names).unwrap()
    }

    #[test]
    fn each_part_is_told_with_its_count() {
        // 100 of a[*0:8] less strong and a, 48 of b[->5], `##1`, strong, and a, b and not b
        let (words, lines) = told("strong(a[*0:8] ##1 b[->5])");
        assert_eq!(words, "written out it has 151 nodes, and 120 is the most");
        let expected = "        98  a[*0:8]\n        48  b[->5]\n         3  booleans\n";
        let even = "`R[*0:8]` grows with the square of its numbers; `(R[*0] or R)[*8]` says the same, and grows \
                    evenly.\n";
        assert_eq!(lines, format!("{COUNTED}{expected}{even}"));
        // what is proposed fits
        let even = "always (a |-> strong(1 ##1 (1[*0] or 1)[*14] ##1 b))";
        let (_, lines) = told("always (a |-> strong(1 ##[1:15] b))");
        assert!(
            lines.contains("; `##1 (1[*0] or 1)[*14] ##1` says the same"),
            "{lines}"
        );
        let read = notation::read(&format!("signals a b c\n{even}")).unwrap();
        assert!(past(&read.assertion.table(), &read.names).is_none());
    }

    #[test]
    fn what_is_copied_counts_at_each_place() {
        // b[->2] is 24 nodes, and stands at 1 + 2 + 3 + 4 places
        let (_, lines) = told("strong(b[->2][*0:3])");
        let places = "       240  b[->2]  (24 at each of 10 places)\n";
        assert!(lines.contains(places), "{lines}");
        assert!(lines.contains("       253  b[->2][*0:3]\n"), "{lines}");
    }

    /// Eighteen a[*2] of 6 nodes, what joins them, strong and a are 127; the part with [*0:3] has 69 characters.
    #[test]
    fn long_parts_are_cut_and_the_rest_is_counted() {
        let many = vec!["a[*2]"; 18].join(" ##1 ");
        let (_, lines) = told(&format!("strong({many})"));
        assert!(lines.contains("            and 10 more parts\n"), "{lines}");
        assert_eq!(lines.lines().count(), 1 + LISTED + 2);
        let long = format!("({}b)[*0:3]", "a ##1 ".repeat(10));
        let (_, lines) = told(&format!("strong({long})"));
        let cut = "       223  (a ##1 a ##1 a ##1 a ##1 a ##1 a .. ##1 a ##1 b)[*0:3]\n";
        assert!(lines.contains(cut), "{lines}");
    }

    #[test]
    fn no_number_is_too_large() {
        let nested = format!("strong(a{})", "[*15]".repeat(60));
        let (words, lines) = told(&nested);
        assert_eq!(
            words,
            "written out it has 1,000,000+ nodes, and 120 is the most"
        );
        assert_eq!(lines.lines().count(), 1 + LISTED + 2);
    }

    #[test]
    fn what_fits_is_not_told() {
        let read = notation::read("signals a\nstrong(a[*0:8])").unwrap();
        assert_eq!(past(&read.assertion.table(), &read.names), None);
    }
}
