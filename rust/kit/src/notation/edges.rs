//! Reading `rose(a)` and `fell(a)`, of a signal and of no other boolean.
use super::hints::forms::bare;
use super::levels::CLOCK;
use super::lexer::Token;
use super::mistake::Mistake;
use super::operands::Wanted;
use super::parser::Parser;
use super::sorts::{called, Part};
use crate::assertion::{Operator, Sort};

impl Parser<'_> {
    /// `rose(a)` or `fell(a)`. The name alone gets no node: a table of 120 nodes that has none for the
    /// signal would not fit when its text is read.
    pub fn edge(&mut self, operator: Operator) -> Result<Part, Mistake> {
        let word = self.take();
        let opening = self.peek();
        if opening.text != "(" {
            return Err(self.unexpected(&format!("(a) after {}, where a is a signal,", word.text)));
        }
        self.take();
        let signal = match self.named_signal() {
            Some(signal) => signal,
            None => self.signal_part(operator, word, opening)?,
        };
        self.built(operator, usize::from(signal), 0, word.start)
    }

    /// Takes `a)`, where a is the name of a signal, declared or given by `let`.
    fn named_signal(&mut self) -> Option<u8> {
        let name = self.peek().text;
        let given = || self.signal_of(self.defined(name)?);
        let signal = self.number(name).or_else(given)?;
        if self.second().text != ")" {
            return None;
        }
        self.take();
        self.take();
        Some(signal)
    }

    /// Takes what else stands in the parentheses, which is a signal where it has more of them around it.
    fn signal_part(
        &mut self,
        operator: Operator,
        word: Token,
        opening: Token,
    ) -> Result<u8, Mistake> {
        let part = self.part(CLOCK, Wanted::Sort(Sort::Boolean))?;
        if self.peek().text == "," {
            let words = format!(
                "{} takes one signal and nothing more: it goes by the sample before, under a clock too",
                word.text
            );
            return Err(self.mistake(self.peek().start, words));
        }
        self.closed(opening, part)?;
        self.signal_of(part.index)
            .ok_or_else(|| self.no_signal(operator, part))
    }

    /// The mistake of a part that is no signal, and so neither rises nor falls.
    fn no_signal(&self, operator: Operator, part: Part) -> Mistake {
        let shown = self.excerpt(part.start.offset, part.end);
        let rises = operator == Operator::Rose;
        let verb = if rises { "rise" } else { "fall" };
        let is = match self.operator(part.index) {
            _ if part.sort != Sort::Boolean => called(part.sort).to_string(),
            Some(Operator::Constant) => "a constant".to_string(),
            _ => {
                let own = self.own(part).map_or("b", bare);
                format!("none: {}", self.instead(rises, part.index, own))
            }
        };
        let words = format!("only a signal can {verb}, and `{shown}` is {is}");
        self.mistake(part.start, words)
    }

    /// What to write for a condition that becomes 1 or 0.
    fn instead(&self, rises: bool, condition: usize, shown: &str) -> String {
        match (self.turned_signal(condition), rises) {
            (Some(name), true) => format!("write fell({name})"),
            (Some(name), false) => format!("write rose({name})"),
            (_, true) => {
                format!("over two samples, `!({shown}) ##1 ({shown})` says that it becomes 1")
            }
            (_, false) => {
                format!("over two samples, `({shown}) ##1 !({shown})` says that it becomes 0")
            }
        }
    }
}
