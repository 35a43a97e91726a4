//! Counting what occurs in some cases and in their answers, by name.

use super::base_nodes;
use crate::count;
use crate::node::{clocks, Node, OPERATORS};
use crate::rewriting::rewritten;
use crate::table::{checked, readable, Table, MOST_NODES};
use crate::versions::NEWEST;
use crate::{answer, Answer, Case, Judgement, Verdict};
use std::collections::BTreeMap;

/// What occurred how often, by name.
#[derive(Debug, Default)]
pub struct Counts(BTreeMap<String, usize>);

impl Counts {
    /// All counts over some cases.
    pub fn over(cases: impl Iterator<Item = Case>) -> Counts {
        let mut counts = Counts::default();
        for case in cases {
            counts.note_case(&case);
            counts.note_answer(&case, &answer(&case));
        }
        counts
    }

    /// How often something occurred.
    pub fn of(&self, name: &str) -> usize {
        self.0.get(name).copied().unwrap_or(0)
    }

    /// Asserts that each of some things occurred so often.
    pub fn at_least<T: AsRef<str>>(&self, least: usize, names: impl IntoIterator<Item = T>) {
        for name in names {
            let (name, count) = (name.as_ref(), self.of(name.as_ref()));
            assert!(count >= least, "{name}: {count}");
        }
    }

    /// Counts one more of something.
    fn note(&mut self, name: String) {
        *self.0.entry(name).or_default() += 1;
    }

    /// Counts what a case is like.
    fn note_case(&mut self, case: &Case) {
        self.note(format!("case {}", kind(case)));
        match case {
            Case::Check { table } | Case::Rewrite { table, .. } => self.note_table(table),
            Case::Expand { table, .. } => self.note_table(table),
            Case::Judge { table, samples, .. }
            | Case::Plain { table, samples }
            | Case::Ends { table, samples, .. } => {
                self.note_table(table);
                self.note_samples(table, samples);
            }
            Case::Program { input } if input.len() > 996 => self.note("long input".to_string()),
            Case::Program { .. } | Case::Read { .. } => {}
        }
    }

    /// Counts the version, the operators and the size of an accepted table.
    fn note_table(&mut self, table: &[u8]) {
        let Ok(Table { version, nodes }) = checked(table, NEWEST) else {
            return;
        };
        self.note(format!("version {version}"));
        for operator in OPERATORS {
            if nodes.iter().any(|node| node.parts().0 == operator) {
                self.note(format!("operator {operator}"));
            }
        }
        if let Some(nodes) = base_nodes(table) {
            self.note(format!("m {}", rewritten(&nodes).len()));
        }
    }

    /// Counts how long a record is for an accepted table, and what it does with
    /// the signals that the table asks about.
    fn note_samples(&mut self, table: &[u8], samples: &[u64]) {
        let Some(nodes) = base_nodes(table) else {
            return;
        };
        self.note(format!("n {}", samples.len()));
        if rewritten(&nodes).len() >= 100 && samples.len() >= 50 {
            self.note("large".to_string());
        }
        for (index, node) in nodes.iter().enumerate() {
            let (name, signal) = match *node {
                Node::Risen(signal) => ("risen", signal),
                Node::Fallen(signal) => ("fallen", signal),
                _ => continue,
            };
            self.note(format!("{name} of {signal}"));
            self.note_uses(name, &nodes, index);
            let bits: Vec<u64> = samples.iter().map(|sample| sample >> signal & 1).collect();
            self.note_bits(name, &bits);
        }
    }

    /// Counts how a boolean is used.
    fn note_uses(&mut self, name: &str, nodes: &[Node], boolean: usize) {
        for user in nodes {
            match *user {
                Node::Not(b) if b == boolean => self.note(format!("not {name}")),
                Node::ClockSequence(c, _) | Node::ClockProperty(c, _) if c == boolean => {
                    self.note(format!("clock {name}"));
                }
                _ => {}
            }
        }
        let operands = nodes.iter().flat_map(|node| node.operands());
        if operands.filter(|&operand| operand == boolean).count() > 1 {
            self.note(format!("{name} shared"));
        }
    }

    /// Counts what a signal does. Where it stays high, pairs made anew for a
    /// suffix would say that it has risen.
    fn note_bits(&mut self, name: &str, bits: &[u64]) {
        let has = |pair: [u64; 2]| bits.windows(2).any(|bits| bits == pair);
        for (occurs, what) in [
            (bits.first() == Some(&1), "high at first"),
            (has([0, 1]), "rises later"),
            (has([1, 1]), "stays high"),
            (has([1, 0]), "falls"),
        ] {
            if occurs {
                self.note(format!("{name} {what}"));
            }
        }
    }

    /// Counts what an answer says.
    fn note_answer(&mut self, case: &Case, answer: &Answer) {
        let number = number(answer);
        self.note(format!("{} {number}", kind(case)));
        self.note(format!("number {number}"));
        match (case, answer) {
            (Case::Judge { table, .. }, Answer::Judge(judged, _)) if number == 0 => {
                self.note(format!("level {}", judged.level));
                self.note(format!("tested {}", judged.tested));
                self.note_inner(table, judged.tested);
            }
            (Case::Plain { table, .. }, Answer::Plain(judged)) if number == 0 => {
                self.note_past(table, judged);
            }
            (_, Answer::Ends(ends, _)) if number == 0 => {
                self.note(format!("top {}", ends.top));
                self.note(format!("mask {}", ends.mask.count_ones().min(3)));
            }
            _ => {}
        }
        if let Some(verdict) = answer.verdict() {
            self.note_fault(case, verdict);
            if let Case::Expand { table, .. } = case {
                self.note_expansion(table, verdict);
            }
        }
    }

    /// Counts which of `|->`, nexttime and until stand below the root, with a
    /// clock or with none, where the table is tested or is not.
    fn note_inner(&mut self, table: &[u8], tested: bool) {
        let Some(nodes) = base_nodes(table) else {
            return;
        };
        let clocks = clocks(&nodes);
        for operator in 37..=39 {
            for (clocked, name) in [(false, "no clock"), (true, "a clock")] {
                let is_such = |node: usize| {
                    nodes[node].parts().0 == operator && clocks[node].is_some() == clocked
                };
                if (0..nodes.len() - 1).any(is_such) {
                    self.note(format!("inner {operator} with {name}, tested {tested}"));
                }
            }
        }
    }

    /// Counts what the plain judge said of a table whose rewriting has more than
    /// 120 nodes.
    fn note_past(&mut self, table: &[u8], judged: &Judgement) {
        let count = base_nodes(table).map_or(0, |nodes| rewritten(&nodes).len());
        if count > MOST_NODES {
            self.note(format!("past level {}", judged.level));
            self.note(format!("past tested {}", judged.tested));
        }
        if count > MOST_NODES + 100 {
            self.note("past by 100".to_string());
        }
    }

    /// Counts what the expander met: versions that it copies, hollow nodes by
    /// their operator, and how many nodes an expansion has.
    fn note_expansion(&mut self, table: &[u8], verdict: Verdict) {
        let version = table.get(3).copied().unwrap_or(0);
        match verdict.number {
            0 if version < 3 => self.note(format!("expander copies version {version}")),
            9 => self.note(format!("hollow {}", table[6 + 4 * verdict.node])),
            0 | 13 => {
                let nodes = readable(table).map_or(Vec::new(), |table| table.nodes);
                self.note(format!("expanded {}", count::expanded(&nodes)));
            }
            _ => {}
        }
    }

    /// Counts which version or which node was refused with 3 or 6.
    fn note_fault(&mut self, case: &Case, verdict: Verdict) {
        let (bytes, name) = match case {
            Case::Check { table } | Case::Rewrite { table, .. } => (table, "table"),
            Case::Expand { table, .. } => (table, "expander's table"),
            Case::Judge { table, .. } | Case::Plain { table, .. } => (table, "table"),
            Case::Ends { table, .. } => (table, "table"),
            Case::Read { record, .. } => (record, "record"),
            Case::Program { .. } => return,
        };
        if verdict.number == 3 {
            let version = u16::from_le_bytes([bytes[3], bytes[4]]);
            self.note(format!("{name} of version {version}"));
        }
        if verdict.number == 6 {
            let node = &bytes[6 + 4 * verdict.node..][..4];
            let fault = match *node {
                [23..=26 | 41..=47, ..] if bytes[3] < 3 => "derived in an older version",
                [operator @ 23..=26, .., 1..=255] => {
                    self.note(format!("operator {operator} with a wrong fourth byte"));
                    return;
                }
                [5 | 6, ..] if bytes[3] == 1 => "in version 1",
                [7..=15, ..] => "between 7 and 15",
                [5 | 6, 64..=255, 0, 0] => "of no signal",
                [5 | 6, _, 1..=255, 0] => "with y",
                [5 | 6, _, 0, 1..=255] => "with a fourth byte",
                _ => "otherwise bad",
            };
            self.note(format!("operator {fault}"));
        }
    }
}

/// The name of the entry point that a case calls.
fn kind(case: &Case) -> &'static str {
    match case {
        Case::Check { .. } => "check",
        Case::Read { .. } => "read",
        Case::Expand { .. } => "expand",
        Case::Rewrite { .. } => "rewrite",
        Case::Judge { .. } => "judge",
        Case::Plain { .. } => "plain",
        Case::Ends { .. } => "ends",
        Case::Program { .. } => "program",
    }
}

/// The number of the refusal, or 0.
fn number(answer: &Answer) -> u8 {
    match answer {
        Answer::Program(line) => match line.split(' ').collect::<Vec<_>>()[..] {
            ["refused", number, ..] => number.parse().expect("a number of refusal"),
            _ => 0,
        },
        _ => answer.verdict().map_or(0, |verdict| verdict.number),
    }
}
