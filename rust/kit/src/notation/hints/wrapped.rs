//! What SystemVerilog has around an assertion: `assert property (..)`, and action blocks after it.
use super::forms::bare;
use crate::notation::hints;
use crate::notation::lexer::{Kind, Lexer, Token};
use crate::notation::parser::Parser;

impl Parser<'_> {
    /// What to write for `assert property (..)`, or the words for all that may stand around an assertion.
    pub fn wrapped(&self) -> String {
        match self.asserted() {
            Some(inner) => format!(
                "the assertion stands alone, without `{} property (..);`, a name or an action block around it: \
                 write `{}`, where always asks at every sample, and under a clock at every tick",
                self.peek().text,
                asked(inner)
            ),
            None => hints::SET_UP.to_string(),
        }
    }

    /// What stands in the parentheses of `assert property (..)`, with `assert` ahead.
    fn asserted(&self) -> Option<&str> {
        let mut tokens = self.upcoming();
        tokens.next().filter(|token| token.text == "property")?;
        let opening = tokens.next().filter(|token| token.text == "(")?;
        let closing = closing(tokens)?;
        self.own_text(opening.end.offset, closing.start.offset)
    }

    /// Whether `else` is ahead and begins an action block.
    pub fn begins_action(&self) -> bool {
        self.peek().text == "else" && acts(self.second())
    }
}

/// Whether a token after `else` belongs to an action block: a task, a block, or nothing.
pub fn acts(after: Token) -> bool {
    let task = after.text.starts_with('$');
    task || ["begin", ";"].contains(&after.text) || after.kind == Kind::End
}

/// The parenthesis that closes one that was taken before.
fn closing<'a>(mut tokens: impl Iterator<Item = Token<'a>>) -> Option<Token<'a>> {
    let mut depth = 1;
    tokens.find(|token| {
        depth += i32::from(token.text == "(") - i32::from(token.text == ")");
        depth == 0
    })
}

/// An assertion that is asked at every sample, or at every tick of the clock before it.
fn asked(inner: &str) -> String {
    let (clock, rest) = match clock_length(inner) {
        Some(length) => inner.split_at_checked(length).unwrap_or(("", inner)),
        None => ("", inner),
    };
    let rest = rest.trim();
    let blank = if clock.is_empty() { "" } else { " " };
    match Lexer::new(rest).token().text == "always" {
        true => inner.to_string(),
        false => format!("{clock}{blank}always ({})", bare(rest)),
    }
}

/// The bytes of `@(..)` at the beginning of a text.
fn clock_length(text: &str) -> Option<usize> {
    let mut lexer = Lexer::new(text);
    let signs = [lexer.token(), lexer.token()];
    let clock = signs.map(|token| token.text) == ["@", "("];
    let tokens = std::iter::from_fn(|| Some(lexer.token()).filter(|token| token.kind != Kind::End));
    closing(tokens)
        .filter(|_| clock)
        .map(|token| token.end.offset)
}
