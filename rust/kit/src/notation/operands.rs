//! Reading operands: prefixes, parentheses, constants and names.
use super::hints;
use super::hints::foreign::bit;
use super::levels::{CLOCK, NEGATION, PREFIX};
use super::lexer::{Kind, Place, Token};
use super::mistake::Mistake;
use super::parser::{Parser, PREFIXES};
use super::sorts::{called, Part};
use super::RESERVED;
use crate::assertion::{Operator, Sort};
use crate::words::shortened;

/// The signs and words that stand before one part: their operator, and how tightly what follows must
/// bind. always and s_eventually reach as far right as they can.
const UNARY: [(&str, Operator, u8); 6] = [
    ("!", Operator::Not, NEGATION),
    ("not", Operator::PropertyNot, PREFIX),
    ("nexttime", Operator::Nexttime, PREFIX),
    ("s_nexttime", Operator::StrongNexttime, PREFIX),
    ("always", Operator::Always, CLOCK),
    ("s_eventually", Operator::Eventually, CLOCK),
];

/// What is wanted at a place, for messages. Where a sequence is wanted, no property is ever right.
#[derive(Clone, Copy, PartialEq, Eq)]
pub enum Wanted {
    /// A part of one sort.
    Sort(Sort),
    /// A part of any sort.
    Any,
}

impl Wanted {
    fn called(self) -> &'static str {
        match self {
            Wanted::Sort(sort) => called(sort),
            Wanted::Any => "a sequence or a property",
        }
    }

    /// What is wanted of an operand that may be of either sort, as its operator then is.
    pub fn either(self) -> Wanted {
        match self {
            Wanted::Sort(Sort::Sequence) => self,
            _ => Wanted::Any,
        }
    }
}

impl Parser<'_> {
    /// Reads the assertion, up to the end of the text.
    pub fn assertion(&mut self) -> Result<(), Mistake> {
        if self.peek().kind == Kind::End {
            let words = "an assertion was expected, and the text ends without one";
            return Err(self.mistake(self.peek().start, words.to_string()));
        }
        let whole = self.part(CLOCK, Wanted::Any)?;
        let token = self.peek();
        let words = match token.text {
            ")" => "this closing parenthesis closes nothing",
            "signals" | "let" => {
                "declarations stand before the assertion, each on a line of its own"
            }
            _ if token.kind == Kind::End => return self.root(whole),
            _ if self.begins_another(token) => {
                "a text says one assertion, and here begins another: `(P) and (Q)` joins two properties"
            }
            _ => return Err(self.unexpected("an operator or the end of the text")),
        };
        Err(self.mistake(token.start, words.to_string()))
    }

    /// Whether a token after the assertion begins another on a new line.
    fn begins_another(&self, token: Token) -> bool {
        let begins = PREFIXES.contains(&token.text) || ["(", "@", "!"].contains(&token.text);
        self.starts_line() && (begins || self.knows(token.text))
    }

    /// The root is the node added last; a boolean alone becomes a letter.
    fn root(&mut self, whole: Part) -> Result<(), Mistake> {
        if whole.sort == Sort::Boolean {
            self.node(Operator::Letter, whole.index, 0, whole.start)?;
        }
        Ok(())
    }

    /// Reads a part whose operators bind at least as tightly as a level says.
    pub fn part(&mut self, least: u8, wanted: Wanted) -> Result<Part, Mistake> {
        self.deeper()?;
        let mut part = self.operand(wanted)?;
        while let Some(joined) = self.join(part, least, wanted)? {
            part = joined;
        }
        self.back();
        Ok(part)
    }

    fn operand(&mut self, wanted: Wanted) -> Result<Part, Mistake> {
        let token = self.peek();
        if let Some(&(_, operator, level)) = UNARY.iter().find(|row| row.0 == token.text) {
            if operator.sort() == Sort::Property && wanted == Wanted::Sort(Sort::Sequence) {
                return Err(self.no_sequence(token));
            }
            return self.prefix(operator, level);
        }
        if token.text == "@" {
            return self.clock(wanted.either());
        }
        let primary = self.primary(wanted)?;
        self.repeated(primary)
    }

    fn prefix(&mut self, operator: Operator, level: u8) -> Result<Part, Mistake> {
        let sign = self.take();
        if hints::takes_numbers(sign.text) && self.peek().text == "[" {
            return Err(self.counted_prefix(sign, level));
        }
        // `!` makes a boolean of one, the others a property
        let operand = self.part(level, Wanted::Sort(operator.sort()))?;
        let x = self.operand_of(operator, 0, operand, sign.start)?;
        self.built(operator, x, 0, sign.start)
    }

    /// `@(c) X`, where X is all that follows.
    fn clock(&mut self, wanted: Wanted) -> Result<Part, Mistake> {
        let sign = self.take();
        let boolean = Wanted::Sort(Sort::Boolean);
        let condition = self.enclosed(boolean, "(c) after @, a clock condition,")?;
        let operand = self.part(CLOCK, wanted)?;
        let operator = match operand.sort {
            Sort::Property => Operator::ClockedProperty,
            _ => Operator::ClockedSequence,
        };
        let x = self.operand_of(operator, 0, condition, sign.start)?;
        let y = self.operand_of(operator, 1, operand, sign.start)?;
        self.built(operator, x, y, sign.start)
    }

    fn primary(&mut self, wanted: Wanted) -> Result<Part, Mistake> {
        let token = self.peek();
        let operator = match (token.kind, token.text) {
            (_, "(") => return self.enclosed(wanted, ""),
            (_, "strong") => Operator::Strong,
            (_, "weak") => Operator::Weak,
            (_, "rose") => return self.edge(Operator::Rose),
            (_, "fell") => return self.edge(Operator::Fell),
            (_, "##") => return Err(self.leading_delay(wanted)),
            (Kind::Number, _) => return self.constant(),
            (Kind::Word, name) if !RESERVED.contains(&name) => return self.name(wanted),
            _ => return Err(self.no_operand(token, wanted)),
        };
        self.take();
        let expected = format!("( after {}", token.text);
        let sequence = self.enclosed(Wanted::Sort(Sort::Sequence), &expected)?;
        let x = self.operand_of(operator, 0, sequence, token.start)?;
        self.built(operator, x, 0, token.start)
    }

    /// The message where a part is wanted and none begins.
    fn no_operand(&mut self, token: Token, wanted: Wanted) -> Mistake {
        if token.text == "signals" {
            let words = "lines with signals stand before those with let";
            return self.mistake(token.start, words.to_string());
        }
        let foreign = self.foreign_operand(wanted);
        foreign.unwrap_or_else(|| self.unexpected(wanted.called()))
    }

    /// A part in parentheses.
    pub fn enclosed(&mut self, wanted: Wanted, expected: &str) -> Result<Part, Mistake> {
        let opening = self.peek();
        if opening.text != "(" {
            return Err(self.unexpected(expected));
        }
        self.take();
        let part = self.part(CLOCK, wanted)?;
        self.closed(opening, part)
    }

    /// A part with the parentheses around it, of which the closing one is due.
    pub fn closed(&mut self, opening: Token, part: Part) -> Result<Part, Mistake> {
        let closing = self.peek();
        let Place { line, column, .. } = opening.start;
        if closing.text == ")" {
            self.take();
            return Ok(Part {
                start: opening.start,
                end: closing.end.offset,
                bracket: None,
                ..part
            });
        }
        let opened = format!("line {line}, column {column}");
        if closing.kind == Kind::End {
            let words = format!("a closing parenthesis was expected, to match {opened}");
            return Err(self.mistake(closing.start, words));
        }
        Err(self.unexpected(&format!(
            "an operator, or a parenthesis to close that of {opened},"
        )))
    }

    fn constant(&mut self) -> Result<Part, Mistake> {
        let token = self.peek();
        let value = match token.text {
            "0" => 0,
            "1" => 1,
            _ => {
                let stands = shortened(token.text);
                let hint = match bit(token) {
                    Some(value) => format!(": write {}", u8::from(value)),
                    None => String::new(),
                };
                let words = format!("the constants are 0 and 1, and here stands `{stands}`{hint}");
                return Err(self.mistake(token.start, words));
            }
        };
        self.take();
        self.built(Operator::Constant, value, 0, token.start)
    }

    /// A signal, or a boolean that was given a name.
    fn name(&mut self, wanted: Wanted) -> Result<Part, Mistake> {
        let token = self.peek();
        if let Some(number) = self.number(token.text) {
            self.take();
            return self.built(Operator::Signal, usize::from(number), 0, token.start);
        }
        let Some(index) = self.defined(token.text) else {
            if hints::takes_numbers(token.text) && self.second().text == "[" {
                if wanted == Wanted::Sort(Sort::Sequence) {
                    return Err(self.no_sequence(token));
                }
                self.take();
                return Err(self.counted_prefix(token, CLOCK));
            }
            let foreign = self.foreign_operand(wanted);
            return Err(foreign.unwrap_or_else(|| self.unknown(token)));
        };
        self.take();
        Ok(Part {
            index,
            sort: Sort::Boolean,
            start: token.start,
            end: token.end.offset,
            bracket: None,
        })
    }

    /// The message for a name that is not declared.
    fn unknown(&self, token: Token) -> Mistake {
        let name = shortened(token.text);
        let words = match (hints::of(token.text), self.nearest(token.text)) {
            (Some(hint), _) => hint.to_string(),
            (_, Some(near)) => format!("{name} is not declared: did you mean {near}?"),
            _ if self.nameless() => {
                format!("{name} is not declared: begin with a line such as `signals {name}=0`")
            }
            _ => format!("{name} is not declared: a line with signals names each signal"),
        };
        self.mistake(token.start, words)
    }
}
