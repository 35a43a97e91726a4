//! Why an input is refused.
use crate::raw::Verdict;
use std::fmt;

/// A refusal: its number, 1 to 15, and the node that it names. Nothing that was lent is changed by
/// a refused call.
#[derive(Clone, Copy, Debug, PartialEq, Eq, Hash)]
pub struct Refusal {
    number: u8,
    node: usize,
}

impl Refusal {
    /// The number of the refusal, 1 to 15.
    pub const fn number(&self) -> u8 {
        self.number
    }

    /// The lowest node that gives the refusal, for 6, 7 and 9; 0 for the others.
    pub const fn node(&self) -> usize {
        self.node
    }

    /// When this number is given.
    pub fn reason(&self) -> &'static str {
        match self.number {
            1 => "fewer than 6 bytes",
            2 => "wrong mark",
            3 => "version of a table none of 1 to 3, of a record not 1",
            4 => "count 0 or over 120",
            5 => "length disagrees with the count",
            6 => {
                "node with unknown operator, bad x, y or fourth byte, operand not below, operand of \
                 wrong sort"
            }
            7 => "sequence or property node, not root, in other than one operand place",
            8 => "root is a boolean",
            9 => "strong, weak or |-> over a sequence that matches no k letters ⊤, k at least 1",
            10 => "more than 63 samples",
            11 => "workspace below 65 times the rewritten count",
            12 => "judge given a sequence root, or match ends a property root",
            13 => "expanded or rewritten count over 120",
            14 => "start above n",
            15 => "output too small",
            _ => unreachable!("the library is proved to answer no other number"),
        }
    }
}

impl fmt::Display for Refusal {
    fn fmt(&self, f: &mut fmt::Formatter<'_>) -> fmt::Result {
        let Refusal { number, node } = self;
        write!(f, "refused {number} at node {node}: {}", self.reason())
    }
}

impl std::error::Error for Refusal {}

/// The verdict as a result: number 0 is an acceptance.
pub(crate) fn settle(verdict: Verdict) -> Result<(), Refusal> {
    let Verdict { number, node } = verdict;
    match number {
        0 => Ok(()),
        _ => Err(Refusal { number, node }),
    }
}

#[cfg(test)]
mod tests {
    use super::*;

    fn refused(number: u8, node: usize) -> Refusal {
        settle(Verdict { number, node }).unwrap_err()
    }

    #[test]
    fn number_0_is_an_acceptance() {
        assert_eq!(settle(Verdict { number: 0, node: 0 }), Ok(()));
    }

    #[test]
    fn a_refusal_says_its_number_node_and_reason() {
        let refusal = refused(9, 3);
        assert_eq!((refusal.number(), refusal.node()), (9, 3));
        assert_eq!(
            refusal.to_string(),
            "refused 9 at node 3: strong, weak or |-> over a sequence that matches no k letters ⊤, \
             k at least 1"
        );
    }

    #[test]
    fn the_reasons_are_those_of_the_page() {
        let page = include_str!("../../../docs/FORMAT.md").replace("`\\|->`", "|->");
        for number in 1..=15 {
            let row = format!("| {number} | {} | ", refused(number, 0).reason());
            assert!(page.contains(&row), "docs/FORMAT.md has no row {row:?}");
        }
    }
}
