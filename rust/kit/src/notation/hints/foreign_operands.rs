//! Mistakes of words before a part that the notation does not have, told with that part.
use super::forms::bare;
use super::wrapped::acts;
use crate::assertion::Sort;
use crate::notation::hints;
use crate::notation::levels::CLOCK;
use crate::notation::lexer::{Kind, Token};
use crate::notation::mistake::Mistake;
use crate::notation::operands::Wanted;
use crate::notation::parser::Parser;
use crate::notation::sorts::Part;

impl Parser<'_> {
    /// The mistake where a part is wanted and a word or sign is ahead that the notation does not have.
    pub fn foreign_operand(&mut self, wanted: Wanted) -> Option<Mistake> {
        let token = self.peek();
        let property = ["never", "if"].contains(&token.text);
        if property && wanted == Wanted::Sort(Sort::Sequence) {
            return Some(self.no_sequence(token));
        }
        let words = match token.text {
            "never" => self.never(),
            "if" => self.conditional(),
            "posedge" | "negedge" | "edge" => self.clock_edge()?,
            "assert" | "assume" | "restrict" => self.wrapped(),
            function if hints::is_function(function) => self.function(token)?,
            _ if self.second().text == ":" && token.kind == Kind::Word => hints::SET_UP.to_string(),
            _ => return None,
        };
        Some(self.mistake(token.start, words))
    }

    fn never(&mut self) -> String {
        let word = self.take();
        let part = self.part_ahead(CLOCK);
        let hint = hints::of(word.text).unwrap_or(hints::SET_UP);
        self.told_with(hint, &[('P', part)])
    }

    /// `if (b) P`, or with `else Q` where that follows.
    fn conditional(&mut self) -> String {
        let mut from_else = self.upcoming().skip_while(|token| token.text != "else");
        let both = from_else.nth(1).is_some_and(|after| !acts(after));
        self.take();
        let parts = self.branches(both);
        let word = if both { "else" } else { "if" };
        let hint = hints::of(word).unwrap_or(hints::SET_UP);
        self.told_with(hint, &parts)
    }

    fn branches(&mut self, both: bool) -> Vec<(char, Option<Part>)> {
        let condition = self.enclosed(Wanted::Sort(Sort::Boolean), "").ok();
        let inside = condition.and_then(|part| self.inner(part));
        let first = self.part_ahead(CLOCK);
        let mut parts = vec![('b', inside), ('P', first)];
        if both {
            let other = self.peek().text == "else";
            self.take();
            let second = self.part_ahead(CLOCK);
            parts.push(('Q', second.filter(|_| other)));
        }
        parts
    }

    /// A part in parentheses without them.
    fn inner(&self, part: Part) -> Option<Part> {
        let text = self.own(part)?;
        let before = text.find(bare(text))?;
        let mut start = part.start;
        start.offset += before;
        let end = start.offset + bare(text).len();
        Some(Part { start, end, ..part })
    }

    /// `posedge c` with its signal.
    fn clock_edge(&self) -> Option<String> {
        let signal = self.second();
        let named = signal.kind == Kind::Word;
        named.then(|| hints::edge(self.peek().text, signal.text).to_string())
    }

    /// `$rose(a)` and the like, with its signal.
    fn function(&self, token: Token) -> Option<String> {
        let mut tokens = self.upcoming();
        tokens.next().filter(|opening| opening.text == "(")?;
        let [name, after, number] = [
            tokens.next()?,
            tokens.next()?,
            tokens.next().unwrap_or(token),
        ];
        let edge = ["$rose", "$fell"].contains(&token.text);
        if name.kind != Kind::Word || ![")", ","].contains(&after.text) {
            return edge.then(|| hints::CONDITION.to_string());
        }
        let counted = token.text == "$past" && after.text == "," && number.kind == Kind::Number;
        if counted && number.text != "1" {
            return hints::past(name.text, number.text).map(|hint| hint.to_string());
        }
        let texts = [('a', name.text.to_string())];
        Some(hints::of(token.text)?.with(&texts, &texts).to_string())
    }
}
