//! The nodes of a table, one a line.
use super::form::version;
use crate::assertion::{Assertion, Operator};
use crate::names::Names;
use crate::notation;
use crate::words;

/// What an operator is called.
const CALLED: [(Operator, &str); 34] = [
    (Operator::Constant, "constant"),
    (Operator::Signal, "signal"),
    (Operator::Not, "boolean not"),
    (Operator::And, "boolean and"),
    (Operator::Or, "boolean or"),
    (Operator::Rose, "rose"),
    (Operator::Fell, "fell"),
    (Operator::Letter, "letter"),
    (Operator::Then, "##1"),
    (Operator::Fused, "##0"),
    (Operator::Either, "sequence or"),
    (Operator::Empty, "[*0]"),
    (Operator::Repeated, "[*1:$]"),
    (Operator::ClockedSequence, "clocked sequence"),
    (Operator::Times, "[*m:n]"),
    (Operator::Delay, "##[m:n]"),
    (Operator::Goto, "[->m]"),
    (Operator::Nonconsecutive, "[=m]"),
    (Operator::Strong, "strong"),
    (Operator::Weak, "weak"),
    (Operator::PropertyNot, "property not"),
    (Operator::PropertyOr, "property or"),
    (Operator::PropertyAnd, "property and"),
    (Operator::Implies, "|->"),
    (Operator::Nexttime, "nexttime"),
    (Operator::Until, "until"),
    (Operator::ClockedProperty, "clocked property"),
    (Operator::ImpliesNext, "|=>"),
    (Operator::Followed, "#-#"),
    (Operator::FollowedNext, "#=#"),
    (Operator::Always, "always"),
    (Operator::Eventually, "s_eventually"),
    (Operator::StrongUntil, "s_until"),
    (Operator::StrongNexttime, "s_nexttime"),
];

/// What the operator with a number is called.
pub fn called(number: u8) -> &'static str {
    let row = CALLED.iter().find(|(known, _)| *known as u8 == number);
    row.map_or("unknown operator", |(_, called)| called)
}

/// What a node is called by its operator and its fourth byte.
fn called_node([number, _, _, fourth]: [u8; 4]) -> String {
    let (m, n) = (fourth % 16, fourth / 16);
    match (Operator::of(number), fourth) {
        (Some(Operator::Times), _) => format!("[*{m}:{n}]"),
        (Some(Operator::Delay), _) => format!("##[{m}:{n}]"),
        (Some(Operator::Goto), m) => format!("[->{m}]"),
        (Some(Operator::Nonconsecutive), m) => format!("[={m}]"),
        (_, 0) => called(number).to_string(),
        _ => format!("{}, fourth byte {fourth}", called(number)),
    }
}

/// What a node is called in a table of this version.
fn called_in(version: u16, node: [u8; 4]) -> String {
    let called = called_node(node);
    match Operator::of(node[0]) {
        Some(known) if known.since() > version => format!("{called}, of version {}", known.since()),
        _ => called,
    }
}

/// The version of an accepted table, and its nodes, each with its part of the assertion.
pub fn accepted(table: &[u8], assertion: &Assertion, names: &Names) -> String {
    let count = words::count(assertion.nodes().len(), "node");
    let mut lines = format!("version {}, {count}\n", version(table));
    for (index, node) in assertion.nodes().iter().enumerate() {
        let part = notation::phrase(assertion, index, names);
        let bytes = [node.operator as u8, node.x, node.y, node.fourth];
        let words = format!("{:<16}  {part}", called_node(bytes));
        lines.push_str(&line(' ', index, bytes, &words));
    }
    lines
}

/// The nodes of a refused table up to one, which is marked, and two after it.
pub fn around(table: &[u8], marked: usize) -> String {
    let bytes = table.get(6..).unwrap_or_default();
    let mut lines = String::new();
    for (index, node) in bytes.chunks_exact(4).enumerate().take(marked + 3) {
        let mark = if index == marked { '>' } else { ' ' };
        if let [operator, x, y, fourth] = *node {
            let node = [operator, x, y, fourth];
            let words = called_in(version(table), node);
            lines.push_str(&line(mark, index, node, &words));
        }
    }
    lines
}

/// One node: its mark, number, operator, x and y, and words for it, which tell the fourth byte.
fn line(mark: char, index: usize, [operator, x, y, _]: [u8; 4], words: &str) -> String {
    format!("{mark} {index:>3}  op {operator:>3}  x {x:>3}  y {y:>3}  {words}\n")
}
