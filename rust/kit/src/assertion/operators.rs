//! The operators of docs/FORMAT.md, with the sort of each node and of its operands, and the version of
//! tables from which on they are known.

/// The sort of a node.
#[derive(Clone, Copy, Debug, PartialEq, Eq, Hash)]
pub enum Sort {
    /// Satisfied or not by one letter.
    Boolean,
    /// Matched or not by a stretch of letters.
    Sequence,
    /// Satisfied or not by a word.
    Property,
}

/// The operator of a node, with its number.
#[derive(Clone, Copy, Debug, PartialEq, Eq, Hash)]
pub enum Operator {
    /// The boolean 0 or 1.
    Constant = 0,
    /// A signal of the sample.
    Signal = 1,
    /// `!b`
    Not = 2,
    /// `b & b`
    And = 3,
    /// `b | b`
    Or = 4,
    /// `rose(a)`, a signal that is 1 and was 0 at the sample before.
    Rose = 5,
    /// `fell(a)`, a signal that is 0 and was 1 at the sample before.
    Fell = 6,
    /// One letter satisfying a boolean.
    Letter = 16,
    /// `R ##1 R`
    Then = 17,
    /// `R ##0 R`
    Fused = 18,
    /// `R or R`
    Either = 19,
    /// `R[*0]`
    Empty = 20,
    /// `R[*1:$]`
    Repeated = 21,
    /// `@(c) R`
    ClockedSequence = 22,
    /// `R[*m:n]`
    Times = 23,
    /// `R ##[m:n] R`
    Delay = 24,
    /// `b[->m]`
    Goto = 25,
    /// `b[=m]`
    Nonconsecutive = 26,
    /// `strong(R)`
    Strong = 32,
    /// `weak(R)`
    Weak = 33,
    /// `not P`
    PropertyNot = 34,
    /// `P or P`
    PropertyOr = 35,
    /// `P and P`
    PropertyAnd = 36,
    /// `R |-> P`
    Implies = 37,
    /// `nexttime P`
    Nexttime = 38,
    /// `P until P`
    Until = 39,
    /// `@(c) P`
    ClockedProperty = 40,
    /// `R |=> P`
    ImpliesNext = 41,
    /// `R #-# P`
    Followed = 42,
    /// `R #=# P`
    FollowedNext = 43,
    /// `always P`
    Always = 44,
    /// `s_eventually P`
    Eventually = 45,
    /// `P s_until P`
    StrongUntil = 46,
    /// `s_nexttime P`
    StrongNexttime = 47,
}

use Operator::*;
use Sort::*;

/// Every operator, with its own sort and those of its operands.
const OPERATORS: [(Operator, Sort, &[Sort]); 34] = [
    (Constant, Boolean, &[]),
    (Signal, Boolean, &[]),
    (Not, Boolean, &[Boolean]),
    (And, Boolean, &[Boolean, Boolean]),
    (Or, Boolean, &[Boolean, Boolean]),
    (Rose, Boolean, &[]),
    (Fell, Boolean, &[]),
    (Letter, Sequence, &[Boolean]),
    (Then, Sequence, &[Sequence, Sequence]),
    (Fused, Sequence, &[Sequence, Sequence]),
    (Either, Sequence, &[Sequence, Sequence]),
    (Empty, Sequence, &[Sequence]),
    (Repeated, Sequence, &[Sequence]),
    (ClockedSequence, Sequence, &[Boolean, Sequence]),
    (Times, Sequence, &[Sequence]),
    (Delay, Sequence, &[Sequence, Sequence]),
    (Goto, Sequence, &[Boolean]),
    (Nonconsecutive, Sequence, &[Boolean]),
    (Strong, Property, &[Sequence]),
    (Weak, Property, &[Sequence]),
    (PropertyNot, Property, &[Property]),
    (PropertyOr, Property, &[Property, Property]),
    (PropertyAnd, Property, &[Property, Property]),
    (Implies, Property, &[Sequence, Property]),
    (Nexttime, Property, &[Property]),
    (Until, Property, &[Property, Property]),
    (ClockedProperty, Property, &[Boolean, Property]),
    (ImpliesNext, Property, &[Sequence, Property]),
    (Followed, Property, &[Sequence, Property]),
    (FollowedNext, Property, &[Sequence, Property]),
    (Always, Property, &[Property]),
    (Eventually, Property, &[Property]),
    (StrongUntil, Property, &[Property, Property]),
    (StrongNexttime, Property, &[Property]),
];

impl Operator {
    /// The operator with a number, if any version of tables knows it.
    pub fn of(number: u8) -> Option<Operator> {
        let mut operators = OPERATORS.iter().map(|(operator, ..)| *operator);
        operators.find(|operator| *operator as u8 == number)
    }

    /// The sort of a node with this operator.
    pub fn sort(self) -> Sort {
        self.row().0
    }

    /// The sorts of its operands.
    pub fn operands(self) -> &'static [Sort] {
        self.row().1
    }

    /// The lowest version of tables that knows it. Later ones do, too.
    pub fn since(self) -> u16 {
        match self {
            Rose | Fell => 2,
            _ if self.is_derived() => 3,
            _ => 1,
        }
    }

    /// Whether it is written out to other operators before a table is judged.
    pub fn is_derived(self) -> bool {
        matches!(self as u8, 23..=26 | 41..=47)
    }

    /// Whether it asks its right side where its left side matches: `|->`, `|=>`, `#-#` or `#=#`.
    pub fn is_implication(self) -> bool {
        matches!(self, Implies | ImpliesNext | Followed | FollowedNext)
    }

    /// Whether its right side is asked one sample, or tick, after the match of its left side.
    pub fn asks_later(self) -> bool {
        matches!(self, ImpliesNext | FollowedNext)
    }

    /// The sign of an implication.
    pub fn sign(self) -> &'static str {
        match self {
            ImpliesNext => "|=>",
            Followed => "#-#",
            FollowedNext => "#=#",
            _ => "|->",
        }
    }

    /// The signs of the implications among some operators, `|-> or |=>`; nothing where there are none.
    pub fn signs(operators: &[Operator]) -> String {
        let implications = [Implies, ImpliesNext, Followed, FollowedNext];
        let found = implications.into_iter();
        let found = found.filter(|implication| operators.contains(implication));
        found.map(Operator::sign).collect::<Vec<_>>().join(" or ")
    }

    /// Whether it asks about a signal, whose number is then x.
    pub fn asks_signal(self) -> bool {
        matches!(self, Signal | Rose | Fell)
    }

    fn row(self) -> (Sort, &'static [Sort]) {
        let row = OPERATORS.iter().find(|(operator, ..)| *operator == self);
        row.map_or((Boolean, &[]), |(_, sort, operands)| (*sort, operands))
    }
}

#[cfg(test)]
mod tests {
    use super::*;

    #[test]
    fn every_operator_has_its_number_and_row() {
        let known: Vec<u8> = (0..=255).filter(|n| Operator::of(*n).is_some()).collect();
        let page: Vec<u8> = (0..=6).chain(16..=26).chain(32..=47).collect();
        assert_eq!(known, page);
        // version 2 adds 5 and 6, and version 3 the derived ones
        let of_version = |version: u16| {
            let since = |number: &u8| Operator::of(*number).map(Operator::since);
            let numbers = page.iter().copied();
            numbers.filter(move |number| since(number) == Some(version))
        };
        assert_eq!(of_version(2).collect::<Vec<_>>(), [5, 6]);
        let derived: Vec<u8> = (23..=26).chain(41..=47).collect();
        assert_eq!(of_version(3).collect::<Vec<_>>(), derived);
        for (operator, sort, operands) in OPERATORS {
            assert_eq!(Operator::of(operator as u8), Some(operator));
            assert_eq!((operator.sort(), operator.operands()), (sort, operands));
        }
    }

    /// The table of docs/FORMAT.md: number, node, sort, operands, fourth byte, versions.
    #[test]
    fn every_operator_has_its_row_on_the_page() {
        let page = include_str!("../../../../docs/FORMAT.md").replace("\\|", "/");
        let (_, table) = page.split_once("\n## The operators\n").unwrap();
        let (table, _) = table.split_once("\n## ").unwrap();
        let rows: Vec<Vec<&str>> = table
            .lines()
            .map(|line| line.trim_matches('|').split('|').map(str::trim).collect())
            .filter(|row: &Vec<&str>| row[0].parse::<u8>().is_ok())
            .collect();
        assert_eq!(rows.len(), OPERATORS.len());
        let word = |sort: &Sort| match sort {
            Boolean => "boolean",
            Sequence => "sequence",
            Property => "property",
        };
        for (row, (operator, sort, operands)) in rows.iter().zip(OPERATORS) {
            let operands = match operator {
                Constant => "x is 0 or 1".to_string(),
                Signal | Rose | Fell => "x is 0 to 63".to_string(),
                _ => operands.iter().map(word).collect::<Vec<_>>().join(", "),
            };
            let fourth = match operator {
                Times | Delay => "m + 16n, m at most n",
                Goto | Nonconsecutive => "m, at most 15",
                _ => "0",
            };
            let versions = ["1 to 3", "2, 3", "3"][usize::from(operator.since()) - 1];
            let number = (operator as u8).to_string();
            assert_eq!(row[0], number);
            assert_eq!(row[2..], [word(&sort), &operands, fourth, versions]);
        }
    }
}
