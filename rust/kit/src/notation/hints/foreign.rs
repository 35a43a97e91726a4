//! Mistakes of operators between two parts that the notation does not have, told with those parts.
use super::own::turned;
use super::Hint;
use crate::assertion::Sort;
use crate::notation::hints;
use crate::notation::levels::{BOTH, EITHER, NEGATION, UNTIL};
use crate::notation::lexer::{Kind, Token};
use crate::notation::mistake::Mistake;
use crate::notation::operands::Wanted;
use crate::notation::parser::Parser;
use crate::notation::sorts::Part;

/// The signs and words of SystemVerilog that join two parts, and how tightly they bind there.
const JOINING: [(&str, u8); 13] = [
    ("==", NEGATION),
    ("===", NEGATION),
    ("!=", NEGATION),
    ("!==", NEGATION),
    ("^", BOTH),
    ("xor", BOTH),
    ("?", EITHER),
    ("->", EITHER),
    ("<->", EITHER),
    ("until_with", UNTIL),
    ("s_until_with", UNTIL),
    ("implies", UNTIL),
    ("iff", UNTIL),
];

impl Parser<'_> {
    /// The mistake where an operator follows a part that the notation does not have.
    pub fn foreign_join(&mut self, left: Part, least: u8, whole: Wanted) -> Result<(), Mistake> {
        let sign = self.peek();
        let row = JOINING.iter().find(|(text, _)| *text == sign.text);
        let level = row.map(|(_, level)| *level).filter(|it| *it >= least);
        let (Some(level), Some(hint)) = (level, hints::of(sign.text)) else {
            return Ok(());
        };
        if self.knows(sign.text) {
            return Ok(());
        }
        if level == UNTIL && whole == Wanted::Sort(Sort::Sequence) {
            return Err(self.no_sequence(sign));
        }
        self.take();
        let given = match sign.text {
            "?" => self.choice(left, &hint),
            _ => self.two_parts(left, sign, level, &hint),
        };
        let words = given.unwrap_or_else(|| hint.to_string());
        Err(self.mistake(sign.start, words))
    }

    /// The words for an operator between two parts, of which the right one is ahead.
    fn two_parts(&mut self, left: Part, sign: Token, level: u8, hint: &Hint) -> Option<String> {
        let token = self.peek();
        if let (NEGATION, Some(value)) = (level, bit(token)) {
            let same = value == sign.text.starts_with('=');
            return self.compared(left, sign, token, same);
        }
        // == is followed by one operand, the others by what binds as they do
        let least = if level == NEGATION {
            NEGATION + 1
        } else {
            level
        };
        let right = self.part_ahead(least)?;
        let implies = sign.text == "->" && right.sort == Sort::Property;
        let (instead, [x, y]) = match level {
            UNTIL => (hint.instead()?, ['P', 'Q']),
            _ if implies => ("R |-> P", ['R', 'P']),
            _ => (hint.instead()?, ['a', 'b']),
        };
        self.own_for(x, left).and(self.own_for(y, right))?;
        let hint = Hint::Made(format!("{x} {} {y}", sign.text), instead.to_string());
        Some(self.told_with(hint, &[(x, Some(left)), (y, Some(right))]))
    }

    /// `a == 1` and the like: the part, or the part turned round.
    fn compared(&self, left: Part, sign: Token, value: Token, same: bool) -> Option<String> {
        let (_, text) = self.own_for('a', left)?;
        let form = format!("{text} {} {}", sign.text, value.text);
        let instead = match same {
            true => text,
            false => turned(&text),
        };
        Some(Hint::Made(form, instead).to_string())
    }

    /// `c ? a : b`, with a ahead.
    fn choice(&mut self, condition: Part, hint: &Hint) -> Option<String> {
        let first = self.part_ahead(EITHER)?;
        if self.peek().text != ":" {
            return None;
        }
        self.take();
        let second = self.part_ahead(EITHER)?;
        let parts = [('c', condition), ('a', first), ('b', second)];
        let parts = parts.map(|(letter, part)| (letter, Some(part)));
        Some(self.told_with(hint.clone(), &parts))
    }
}

/// The value of a number of one bit, such as `1`, `1'b0` or `1'h1`.
pub fn bit(token: Token) -> Option<bool> {
    let value = match token.text.strip_prefix("1'") {
        Some(based) => based.trim_start_matches(['b', 'h', 'd', 'o', 'B', 'H', 'D', 'O']),
        None => token.text,
    };
    match (token.kind, value) {
        (Kind::Number, "0") => Some(false),
        (Kind::Number, "1") => Some(true),
        _ => None,
    }
}
