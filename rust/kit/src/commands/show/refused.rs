//! Why a table is refused, with what was found in it.
use super::form::{self, count, version, TABLE};
use super::nodes;
use crate::assertion::{Operator, Sort};
use crate::notation;
use crate::refusals;
use crate::source::Source;
use xistomar::Refusal;

/// The program's line, the words of docs/FORMAT.md (Refusals), what was found, and the nodes around a refused one.
pub fn report(source: &Source, refusal: Refusal) -> String {
    let table = &source.table;
    let found = match refusal.number() {
        9 => refusals::hollow_part(source, refusal.node()),
        13 => refusals::past(source).trim_end().to_string(),
        _ => found(table, refusal),
    };
    let mut report = form::report(refusal, &found);
    if matches!(refusal.number(), 6 | 7 | 9) {
        report.push('\n');
        report.push_str(&nodes::around(table, refusal.node()));
    }
    report
}

/// What was found in the table.
fn found(table: &[u8], refusal: Refusal) -> String {
    let node = refusal.node();
    match refusal.number() {
        6 => faults(table, node).join("\n"),
        7 => places(table, node),
        8 => {
            let root = usize::from(count(table)).saturating_sub(1);
            let [operator, ..] = bytes(table, root);
            format!("the root is node {root}, a {}", nodes::called(operator))
        }
        _ => form::found(table, &TABLE, refusal),
    }
}

/// The four bytes of a node.
fn bytes(table: &[u8], node: usize) -> [u8; 4] {
    let nodes = table.get(6..).unwrap_or_default();
    let node = nodes.chunks_exact(4).nth(node);
    node.and_then(|node| node.try_into().ok())
        .unwrap_or_default()
}

/// Which of the reasons for refusal 6 a node gives, in the order of docs/FORMAT.md (Refusals).
fn faults(table: &[u8], node: usize) -> Vec<String> {
    let [number, x, y, fourth] = bytes(table, node);
    let Some(operator) = Operator::of(number) else {
        return vec![format!("unknown operator: {number}")];
    };
    if operator.since() > version(table) {
        return vec![of_later_version(operator, version(table))];
    }
    let mut faults = bad_bytes(operator, x, y);
    faults.extend(bad_fourth(operator, fourth));
    let operands = [("x", x), ("y", y)].into_iter().zip(operator.operands());
    for ((called, operand), sort) in operands {
        faults.extend(bad_operand(table, node, called, operand, *sort));
    }
    faults
}

/// An operator that tables of this version do not know, and those of a later one do.
fn of_later_version(operator: Operator, version: u16) -> String {
    let number = operator as u8;
    let (called, since) = (nodes::called(number), operator.since());
    format!(
        "unknown operator: operator {number} ({called}) needs version {since}, and this table has \
         version {version}: with {since} in byte 3 it is known"
    )
}

/// Bytes of x and y that no node with this operator has.
fn bad_bytes(operator: Operator, x: u8, y: u8) -> Vec<String> {
    let mut faults = Vec::new();
    match operator {
        Operator::Constant if x > 1 => {
            faults.push(format!("bad x or y: x is {x}, and a constant is 0 or 1"));
        }
        _ if operator.asks_signal() && x > 63 => {
            faults.push(format!("bad x or y: x is {x}, and a signal is 0 to 63"));
        }
        _ => {}
    }
    if operator.operands().len() < 2 && y != 0 {
        faults.push(format!(
            "bad x or y: y is {y}, and it is not used here, so 0 is due"
        ));
    }
    faults
}

/// A fourth byte that no node with this operator has.
fn bad_fourth(operator: Operator, fourth: u8) -> Option<String> {
    let (m, n) = (fourth % 16, fourth / 16);
    match operator {
        Operator::Times | Operator::Delay => {
            let found = format!("bad fourth byte: it is {fourth}, which is {m} + 16 times {n}");
            (m > n).then(|| format!("{found}, and the first number is at most the second"))
        }
        Operator::Goto | Operator::Nonconsecutive => {
            (fourth > 15).then(|| format!("bad fourth byte: it is {fourth}, and 15 is the most"))
        }
        _ => (fourth != 0).then(|| format!("fourth byte not 0: it is {fourth}")),
    }
}

/// What is wrong with an operand: it does not stand below its node, or is of the wrong sort.
fn bad_operand(table: &[u8], node: usize, called: &str, operand: u8, due: Sort) -> Option<String> {
    if usize::from(operand) >= node {
        return Some(format!("operand not below: {called} is {operand}"));
    }
    let [below, ..] = bytes(table, usize::from(operand));
    let sort = Operator::of(below)?.sort();
    let (given, wanted) = (notation::called(sort), notation::called(due));
    let words = format!(
        "operand of wrong sort: {called} is node {operand}, {given}, where {wanted} is due"
    );
    (sort != due).then_some(words)
}

/// The operand places in which a node stands.
fn places(table: &[u8], node: usize) -> String {
    let mut above = Vec::new();
    for index in 0..usize::from(count(table)) {
        let [operator, x, y, _] = bytes(table, index);
        let operands = Operator::of(operator).map_or(0, |known| known.operands().len());
        let places = [x, y].into_iter().take(operands);
        let here = places.filter(|operand| usize::from(*operand) == node);
        above.extend(here.map(|_| index.to_string()));
    }
    match above.len() {
        0 => format!("node {node} stands in no operand place"),
        count => {
            let above = above.join(", ");
            format!("node {node} stands in {count} operand places: of nodes {above}")
        }
    }
}
