//! Assertions that are asked at the first sample only.
//!
//! SystemVerilog's `assert property` asks at every tick of its clock. Here an assertion is asked at the
//! first sample, and `always P` asks P at every one. So each implication, `strong` or `weak` with no
//! `always`, `until` or the like above it is asked once, and people are told so, with what to write
//! instead.
use crate::assertion::{Assertion, Operator, MOST_NODES};
use crate::names::Names;
use crate::notation;
use crate::options::Options;
use crate::refusals;
use crate::source::Source;

/// What is asked at the first sample only, and how to ask it at every one.
#[derive(Clone, Debug, PartialEq, Eq)]
pub struct Once {
    /// The parts that are asked once; empty where it is the whole assertion, but for clocks around it.
    parts: Vec<String>,
    /// `sample`, or `tick` under a clock.
    every: &'static str,
    /// The assertion that asks at every sample, or why there is none.
    instead: Result<String, String>,
}

impl Once {
    /// What an accepted property asks once, if anything.
    pub fn of(assertion: &Assertion, names: &Names) -> Option<Once> {
        let mut nodes = Vec::new();
        collect(assertion, assertion.root(), &mut nodes);
        let text = |node: usize| notation::part(assertion, node, names);
        let parts = match nodes.as_slice() {
            [] => return None,
            [whole] if *whole == below_clocks(assertion) => Vec::new(),
            _ => nodes.iter().copied().map(text).collect(),
        };
        let clocked = nodes
            .iter()
            .filter(|node| assertion.clock(**node).is_some());
        let every = match clocked.count() {
            0 => "sample",
            count if count == nodes.len() => "tick",
            _ => "sample or tick",
        };
        Some(Once {
            parts,
            every,
            instead: instead(assertion, &nodes, names),
        })
    }

    /// What to tell people, in lines.
    pub fn words(&self) -> String {
        let what = match self.parts.as_slice() {
            [] => "the whole assertion".to_string(),
            parts => parts.join("; "),
        };
        let once = format!("Asked once: {what}, at the first sample only.");
        let every = self.every;
        match &self.instead {
            Ok(text) => format!(
                "{once} To ask at every {every}, write\n  {text}\n\
                 or say with --once that once is meant.\n"
            ),
            Err(why) => format!(
                "{once} always (..) around it asks at every {every}, {why}.\n\
                 Say with --once that once is meant.\n"
            ),
        }
    }
}

/// What to tell people of an assertion that asks something once; nothing where `--once` says that it is
/// meant.
pub fn note(assertion: &Assertion, names: &Names, options: &Options) -> String {
    match Once::of(assertion, names) {
        Some(once) if !options.flag("--once") => once.words(),
        _ => String::new(),
    }
}

/// The node below the clocks that stand around the whole assertion.
fn below_clocks(assertion: &Assertion) -> usize {
    let mut node = assertion.root();
    while assertion.node(node).operator == Operator::ClockedProperty {
        node = usize::from(assertion.node(node).y);
    }
    node
}

/// Finds the nodes that need `always (..)` around them: what is asked once, below its clocks.
fn collect(assertion: &Assertion, index: usize, found: &mut Vec<usize>) {
    if !asks_once(assertion, index) {
        return;
    }
    let node = assertion.node(index);
    match node.operator {
        Operator::ClockedProperty => collect(assertion, usize::from(node.y), found),
        Operator::PropertyAnd if is_divided(assertion, index) => {
            for side in node.operands() {
                collect(assertion, side, found);
            }
        }
        _ => found.push(index),
    }
}

/// Whether an implication, `strong` or `weak` in a part has nothing above it there that asks again.
fn asks_once(assertion: &Assertion, index: usize) -> bool {
    let node = assertion.node(index);
    match node.operator {
        Operator::Strong | Operator::Weak => true,
        implication if implication.is_implication() => true,
        Operator::ClockedProperty => asks_once(assertion, usize::from(node.y)),
        Operator::PropertyNot
        | Operator::PropertyAnd
        | Operator::PropertyOr
        | Operator::Nexttime
        | Operator::StrongNexttime => node.operands().any(|operand| asks_once(assertion, operand)),
        _ => false,
    }
}

/// Whether the sides of an `and` need an always each: one of them, or of the `and`s that it is made of, has
/// a clock of its own or needs none.
fn is_divided(assertion: &Assertion, index: usize) -> bool {
    let node = assertion.node(index);
    match node.operator {
        Operator::ClockedProperty => true,
        Operator::PropertyAnd => node.operands().any(|side| is_divided(assertion, side)),
        _ => !asks_once(assertion, index),
    }
}

/// The text that asks these nodes at every sample, or why it cannot be had.
fn instead(assertion: &Assertion, nodes: &[usize], names: &Names) -> Result<String, String> {
    let many =
        || format!("but then it has more than {MOST_NODES} nodes, and {MOST_NODES} is the most");
    let always = assertion.asked_always(nodes).ok_or_else(many)?;
    let source = Source::made(always.table(), names.clone());
    if let Some(words) = refusals::too_large(&source) {
        return Err(format!("but then {words}"));
    }
    let text = notation::whole(&always, names);
    text.ok_or("and the whole of it is too long to be written here".to_string())
}

#[cfg(test)]
mod tests;
