//! The implications of an assertion, `|->`, `|=>`, `#-#` and `#=#`: where a record reached each, and where
//! its right side was then asked.
use super::awaiting::Awaiting;
use super::reached::Reaching;
use crate::assertion::Operator;
use crate::names::Names;
use crate::notation;
use xistomar::{Judge, Refusal};

/// An implication of an assertion, on a record.
#[derive(Clone, Debug, PartialEq, Eq)]
pub struct Implication {
    /// The node of the table.
    pub node: usize,
    /// Its text, under its clock.
    pub part: String,
    /// The text of its left side, under its clock.
    pub left: String,
    /// The samples from which it was reached, and the number of samples where that was at the end.
    pub reached: Vec<usize>,
    /// The samples at which the right side was asked: the last ones of the matches of its left side from
    /// there, and of `|=>` and `#=#` the ones after.
    pub matched: Vec<usize>,
    /// What a `|=>` or `#=#` still awaits.
    pub awaiting: Option<Awaiting>,
    /// Its operator.
    pub operator: Operator,
}

impl Implication {
    /// Whether it was asked: its right side was, from a sample at which it was reached.
    pub fn asked(&self) -> bool {
        !self.matched.is_empty()
    }
}

/// Judges the samples by a table and lists the implications of its assertion, in the order of the table.
pub fn implications(
    table: &[u8],
    names: &Names,
    samples: &[u64],
) -> Result<Vec<Implication>, Refusal> {
    let reaching = Reaching::of(table)?;
    let mut judge = Judge::new();
    let reached = reaching.reached(&mut judge, samples)?;
    let rows = judge.workspace();
    let assertion = reaching.assertion();
    let text = |node: usize| notation::part(assertion, node, names);
    let listed = reaching.implications().iter();
    Ok(listed
        .map(|asking| Implication {
            node: asking.node,
            part: text(asking.node),
            left: text(usize::from(assertion.node(asking.node).x)),
            reached: reached.reached(asking),
            matched: reached.asked(asking),
            awaiting: reaching.awaiting(asking, &reached, (rows, samples.len())),
            operator: assertion.node(asking.node).operator,
        })
        .collect())
}
