//! The lines before the assertion: the signals, and booleans that get a name.
use super::lexer::{Kind, Token};
use super::mistake::Mistake;
use super::operands::Wanted;
use super::parser::{character, Parser, PREFIXES};
use super::RESERVED;
use crate::assertion::Sort;
use crate::names::NAMES_HAVE;
use crate::words::shortened;

/// The characters of a name, at most.
const LONGEST_NAME: usize = 200;

impl<'a> Parser<'a> {
    /// Reads the lines that begin with `signals`.
    pub fn signals(&mut self) -> Result<(), Mistake> {
        let mut next = 0;
        while self.peek().text == "signals" {
            self.begin_line();
            self.take();
            loop {
                next = self.signal(next)?;
                if self.peek().text == "," {
                    self.take();
                } else if self.peek().kind == Kind::End {
                    break;
                } else if self.begins_line() {
                    let words = "a new line is due here: declarations and the assertion begin one";
                    return Err(self.mistake(self.peek().start, words.to_string()));
                }
            }
            self.end_line();
        }
        Ok(())
    }

    /// Whether the word ahead begins a line that goes on where it should have ended. Before `=`, `,` and
    /// the end it was meant as a name.
    fn begins_line(&self) -> bool {
        let after = self.second();
        match self.peek().text {
            "strong" | "weak" | "rose" | "fell" => after.text == "(",
            word => {
                let name = after.kind == Kind::End || ["=", ","].contains(&after.text);
                let begins = PREFIXES.contains(&word) || ["signals", "let"].contains(&word);
                begins && !name
            }
        }
    }

    /// Reads one declaration, `NAME=NUMBER` or `NAME` for the next number, and answers the number
    /// after it.
    fn signal(&mut self, next: u8) -> Result<u8, Mistake> {
        let name = self.new_name("the name of a signal")?;
        let (number, place) = match self.peek().text {
            "=" => {
                self.take();
                let number = self.peek();
                (self.signal_number()?, number.start)
            }
            _ => (next, name.start),
        };
        let declared = self.names_mut().declare(name.text, number);
        declared.map_err(|words| self.mistake(place, words))?;
        Ok(number.saturating_add(1))
    }

    /// Takes a number. One that a letter follows at once is none: `0x1` is not 0.
    fn signal_number(&mut self) -> Result<u8, Mistake> {
        let token = self.peek();
        let expected = "the number of a signal, 0 to 63,";
        let digits = token.text.bytes().all(|byte| byte.is_ascii_digit());
        if token.kind == Kind::End {
            return Err(self.unexpected(expected));
        }
        if token.kind != Kind::Number || !digits {
            return Err(self.not_due(token, token.text, expected, ""));
        }
        self.take();
        let next = self.peek();
        if next.kind == Kind::Word && self.touches() {
            let whole = format!("{}{}", token.text, next.text);
            return Err(self.not_due(token, &whole, expected, ""));
        }
        let number = token.text.parse();
        let large = |_| format!("signal {} is above 63", shortened(token.text));
        number
            .map_err(large)
            .map_err(|words| self.mistake(token.start, words))
    }

    /// The message for what is not due in a declaration, where the hints for assertions do not help.
    fn not_due(&self, token: Token, text: &str, expected: &str, hint: &str) -> Mistake {
        let stands = character(text);
        let words = format!("{expected} was expected, and here stands {stands}{hint}");
        self.mistake(token.start, words)
    }

    /// Reads the lines that begin with `let`.
    pub fn definitions(&mut self) -> Result<(), Mistake> {
        while self.peek().text == "let" {
            self.begin_line();
            self.take();
            let name = self.new_name("the name of a boolean")?;
            if self.peek().text != "=" {
                return Err(self.unexpected("= and a boolean"));
            }
            self.take();
            let part = self.part(0, Wanted::Sort(Sort::Boolean))?;
            if self.peek().kind != Kind::End {
                return Err(self.unexpected("an operator or the end of the line"));
            }
            if part.sort != Sort::Boolean {
                return Err(self.wrong_sort(part, Sort::Boolean, ""));
            }
            self.define(name.text, part.index);
            self.end_line();
        }
        Ok(())
    }

    /// Takes a name that is not in use yet.
    fn new_name(&mut self, expected: &str) -> Result<Token<'a>, Mistake> {
        let token = self.peek();
        let words = if token.kind == Kind::End || [";", "#", "--", "/*"].contains(&token.text) {
            return Err(self.unexpected(expected));
        } else if token.kind != Kind::Word {
            let hint = format!(": {NAMES_HAVE}");
            return Err(self.not_due(token, token.text, expected, &hint));
        } else if RESERVED.contains(&token.text) {
            let word = token.text;
            format!("{word} is a word of the notation and names no signal: {word}_ would do")
        } else if token.text.chars().count() > LONGEST_NAME {
            format!("a name has at most {LONGEST_NAME} characters")
        } else if self.knows(token.text) {
            format!("the name {} is declared twice", token.text)
        } else {
            self.take();
            return Ok(token);
        };
        Err(self.mistake(token.start, words))
    }
}
