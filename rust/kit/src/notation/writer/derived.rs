//! Writing the derived operators.
use super::super::levels::{CLOCK, DELAY, PREFIX, REPETITION};
use super::{at, Texts, Written};
use crate::assertion::{Node, Operator};

impl Texts {
    /// The text of a node with a derived operator.
    pub fn derived(&self, node: Node, nodes: &[Node]) -> Written {
        let repeated = |inside: String| {
            let operand = self.operand(node.x, REPETITION);
            at(REPETITION, format!("{operand}[{inside}]"))
        };
        let reaching = |word: &str| at(CLOCK, format!("{word} {}", self.reached(node.x, nodes)));
        match node.operator {
            Operator::Times => repeated(times(node)),
            Operator::Goto => repeated(format!("->{}", node.fourth)),
            Operator::Nonconsecutive => repeated(format!("={}", node.fourth)),
            Operator::Delay => self.joined(node, &delay(node), DELAY, [DELAY, DELAY + 1]),
            Operator::ImpliesNext => self.implication(node, "|=>"),
            Operator::Followed => self.implication(node, "#-#"),
            Operator::FollowedNext => self.implication(node, "#=#"),
            Operator::StrongUntil => self.until(node, "s_until"),
            Operator::StrongNexttime => {
                let operand = self.operand(node.x, PREFIX);
                at(PREFIX, format!("s_nexttime {operand}"))
            }
            Operator::Always => reaching("always"),
            _ => reaching("s_eventually"),
        }
    }
}

/// `*3` or `*2:5`. `*0` alone is another operator's.
fn times(node: Node) -> String {
    match node.bounds() {
        (m, n) if m == n && m > 0 => format!("*{m}"),
        (m, n) => format!("*{m}:{n}"),
    }
}

/// `##3` or `##[1:4]`. `##0` and `##1` are other operators'.
fn delay(node: Node) -> String {
    match node.bounds() {
        (m, n) if m == n && m > 1 => format!("##{m}"),
        (m, n) => format!("##[{m}:{n}]"),
    }
}
