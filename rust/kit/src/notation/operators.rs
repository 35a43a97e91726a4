//! Reading what joins two parts, and repetitions.
use super::counts::{self, Counted};
use super::hints;
use super::levels::{AND, BOTH, DELAY, EITHER, IMPLIES, OR, UNTIL};
use super::lexer::{Kind, Place, Token};
use super::mistake::Mistake;
use super::operands::Wanted;
use super::parser::Parser;
use super::sorts::Part;
use crate::assertion::{Operator, Sort};
use crate::words::shortened;

/// The tokens between `[` and `]` that are looked at, at most.
const INSIDE: usize = 6;

/// The signs and words that join two parts: their level, whether they are read from right to left,
/// and their operator. `##` and `or` may turn out to be another.
const JOINING: [(&str, u8, bool, Operator); 11] = [
    ("&", BOTH, false, Operator::And),
    ("|", EITHER, false, Operator::Or),
    ("##", DELAY, false, Operator::Then),
    ("and", AND, false, Operator::PropertyAnd),
    ("or", OR, false, Operator::PropertyOr),
    ("until", UNTIL, true, Operator::Until),
    ("s_until", UNTIL, true, Operator::StrongUntil),
    ("|->", IMPLIES, true, Operator::Implies),
    ("|=>", IMPLIES, true, Operator::ImpliesNext),
    ("#-#", IMPLIES, true, Operator::Followed),
    ("#=#", IMPLIES, true, Operator::FollowedNext),
];

impl Parser<'_> {
    /// Joins a part with what follows, where an operator does that binds at least as tightly as
    /// `least` says. `whole` is wanted of the two together.
    pub fn join(&mut self, left: Part, least: u8, whole: Wanted) -> Result<Option<Part>, Mistake> {
        let text = self.peek().text;
        let Some(&(_, level, from_right, operator)) = JOINING.iter().find(|row| row.0 == text)
        else {
            self.foreign_join(left, least, whole)?;
            return Ok(None);
        };
        if level < least {
            return Ok(None);
        }
        let property = operator.sort() == Sort::Property && operator != Operator::PropertyOr;
        if property && whole == Wanted::Sort(Sort::Sequence) {
            return Err(self.no_sequence(self.peek()));
        }
        let sign = self.take();
        let (operator, fourth) = match operator {
            Operator::Then => self.delay(left, sign)?,
            other => (other, 0),
        };
        let wanted = match operator {
            Operator::PropertyOr if left.sort == Sort::Property => Wanted::Sort(Sort::Property),
            Operator::PropertyOr => whole.either(),
            other => match other.operands() {
                [_, right] => Wanted::Sort(*right),
                _ => Wanted::Any,
            },
        };
        let right = self.part(level + u8::from(!from_right), wanted)?;
        self.joined((operator, fourth), left, right, sign).map(Some)
    }

    fn joined(
        &mut self,
        (operator, fourth): Counted,
        left: Part,
        right: Part,
        sign: Token,
    ) -> Result<Part, Mistake> {
        let properties = [left, right].iter().any(|part| part.sort == Sort::Property);
        let operator = match operator {
            Operator::PropertyOr if !properties => Operator::Either,
            other => other,
        };
        let booleans = [left, right].iter().all(|part| part.sort == Sort::Boolean);
        if operator == Operator::PropertyAnd && booleans && !self.stray() {
            return Err(self.booleans_joined(left, right));
        }
        let x = self.operand_of(operator, 0, left, left.start)?;
        let y = self.operand_of(operator, 1, right, left.start)?;
        let index = self.counted((operator, fourth), x, y, sign.start)?;
        Ok(Part {
            index,
            sort: operator.sort(),
            start: left.start,
            end: right.end,
            bracket: None,
        })
    }

    /// The operator of a delay; its mistake tells what stands on both sides of it.
    fn delay(&mut self, left: Part, sign: Token) -> Result<Counted, Mistake> {
        let after = self.after_delay()?;
        let words = match counts::delay(&after) {
            Ok(Some(counted)) => return Ok(counted),
            Ok(None) => {
                let right = self.part_ahead(DELAY + 1);
                let parts = [('R', Some(left)), ('S', right)];
                self.told_with(hints::delay(&after), &parts)
            }
            Err(words) => words,
        };
        Err(self.mistake(sign.start, words))
    }

    /// Takes what follows `##`, a number, or two in brackets, and answers it without blanks.
    pub fn after_delay(&mut self) -> Result<String, Mistake> {
        Ok(match self.peek() {
            token if token.text == "[" => format!("[{}]", self.inside()?),
            token if token.kind == Kind::Number => self.take().text.to_string(),
            _ => String::new(),
        })
    }

    /// The mistake of numbers in brackets after a word that stands before a property, which binds as tightly as a
    /// level says.
    pub fn counted_prefix(&mut self, word: Token, level: u8) -> Mistake {
        let bracket = self.peek().start;
        let inside = match self.inside() {
            Ok(inside) => inside,
            Err(mistake) => return mistake,
        };
        let property = self.part_ahead(level);
        let hint = hints::prefix(word.text, &inside);
        let words = self.told_with(hint, &[('P', property)]);
        self.mistake(bracket, words)
    }

    /// The repetitions after a part.
    pub fn repeated(&mut self, mut part: Part) -> Result<Part, Mistake> {
        while self.peek().text == "[" {
            let bracket = self.peek().start;
            let inside = self.inside()?;
            let counted = self.repetition(part, &inside, bracket)?;
            let x = self.operand_of(counted.0, 0, part, part.start)?;
            let built = self.built_counted(counted, x, 0, part.start)?;
            part = Part {
                bracket: part.bracket.or(Some(bracket.offset)),
                ..built
            };
        }
        Ok(part)
    }

    /// The operator of a repetition, or its mistake: what is wrong with the part or with the numbers, or the hint
    /// for a form that is not part of the notation.
    fn repetition(&mut self, part: Part, inside: &str, place: Place) -> Result<Counted, Mistake> {
        let words = match counts::repetition(inside) {
            Ok(Some(counted)) => return Ok(counted),
            Ok(None) => {
                if let Some((operator, _)) = counts::split(inside) {
                    self.operand_of(operator, 0, part, part.start)?;
                }
                let letter = match inside.starts_with(['-', '=']) {
                    true => 'b',
                    false => 'R',
                };
                self.told_with(hints::repetition(inside), &[(letter, Some(part))])
            }
            Err(words) => words,
        };
        Err(self.mistake(place, words))
    }

    /// Takes `[`, what is inside, and `]`; answers the inside without blanks. Two numbers need a sign between
    /// them: `1 0` is not 10.
    fn inside(&mut self) -> Result<String, Mistake> {
        self.take();
        let (mut inside, mut before) = (String::new(), None);
        for _ in 0..INSIDE {
            let token = self.peek();
            let number = matches!(token.kind, Kind::Number | Kind::Word);
            if !number && !["*", ":", "$", "+", "-", "->", "="].contains(&token.text) {
                break;
            }
            if let (true, Some(before)) = (number, before) {
                return Err(self.second_number(before));
            }
            inside.push_str(self.take().text);
            before = number.then_some(token);
        }
        if self.peek().text != "]" {
            return Err(self.unexpected("a closing ] after a repetition or a delay"));
        }
        self.take();
        Ok(inside)
    }

    /// The mistake of a number, or a word, right after another in brackets.
    fn second_number(&self, before: Token) -> Mistake {
        let [first, second] = [before, self.peek()].map(|token| shortened(token.text));
        let words = format!(
            "one number was expected, or two with a colon as in `2:5`, and here stands `{second}` after \
             `{first}`"
        );
        self.mistake(self.peek().start, words)
    }
}
