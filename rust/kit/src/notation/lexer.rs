//! The signs and words of a text, one after the other, with their places.
use super::hints;
use crate::names::{begins_name, in_name};

/// A place in a text.
#[derive(Clone, Copy, Debug, PartialEq, Eq)]
pub struct Place {
    /// The line, from 1.
    pub line: usize,
    /// The column in characters, from 1.
    pub column: usize,
    /// The bytes before it.
    pub offset: usize,
}

/// What a token is.
#[derive(Clone, Copy, Debug, PartialEq, Eq)]
pub enum Kind {
    /// A name, or a word of the notation.
    Word,
    /// A number.
    Number,
    /// A sign of the notation.
    Sign,
    /// What is not part of the notation.
    Foreign,
    /// The end of the text, or of the line where a declaration stands.
    End,
}

/// A word, number or sign of a text.
#[derive(Clone, Copy, Debug)]
pub struct Token<'a> {
    /// What it is.
    pub kind: Kind,
    /// As it stands in the text; empty at the end.
    pub text: &'a str,
    /// Where it begins.
    pub start: Place,
    /// The place after it.
    pub end: Place,
}

impl Token<'_> {
    /// The end of a text or of a line, after the last token before it.
    pub fn end_at(place: Place) -> Token<'static> {
        Token {
            kind: Kind::End,
            text: "",
            start: place,
            end: place,
        }
    }
}

/// The signs of the notation.
const SIGNS: [&str; 18] = [
    "|->", "|=>", "#-#", "#=#", "##", "(", ")", "[", "]", "*", ":", "$", "!", "&", "|", "@", "=",
    ",",
];

/// Reads a text token by token, so that no more is kept of it than needed.
#[derive(Clone, Debug)]
pub struct Lexer<'a> {
    rest: &'a str,
    place: Place,
    last: Place,
}

impl<'a> Lexer<'a> {
    /// At the beginning of a text.
    pub fn new(text: &'a str) -> Lexer<'a> {
        let place = Place {
            line: 1,
            column: 1,
            offset: 0,
        };
        Lexer {
            rest: text,
            place,
            last: place,
        }
    }

    /// The next token; the end again and again once it is reached.
    pub fn token(&mut self) -> Token<'a> {
        self.skip();
        let Some((kind, bytes)) = shape(self.rest) else {
            return Token::end_at(self.last);
        };
        let start = self.place;
        let text = self.advance(bytes);
        self.last = self.place;
        Token {
            kind,
            text,
            start,
            end: self.place,
        }
    }

    /// Passes over white space and comments.
    fn skip(&mut self) {
        loop {
            let blank = self.rest.len() - self.rest.trim_start().len();
            self.advance(blank);
            if !self.rest.starts_with("//") {
                return;
            }
            // a line that ends with \r alone ends a comment too: what is seen below it is no comment
            let comment = self.rest.find(['\n', '\r']).unwrap_or(self.rest.len());
            self.advance(comment);
        }
    }

    /// Takes so many bytes, which end between two characters.
    fn advance(&mut self, bytes: usize) -> &'a str {
        let (taken, rest) = self.rest.split_at_checked(bytes).unwrap_or((self.rest, ""));
        for c in taken.chars() {
            self.place.column += 1;
            if c == '\n' {
                self.place.line += 1;
                self.place.column = 1;
            }
        }
        self.place.offset += taken.len();
        self.rest = rest;
        taken
    }
}

/// What stands at the beginning of a text, and its length in bytes; nothing at its end.
fn shape(rest: &str) -> Option<(Kind, usize)> {
    let first = rest.chars().next()?;
    if begins_name(first) {
        return Some((Kind::Word, length(rest, in_name)));
    }
    if first.is_ascii_digit() {
        return Some((Kind::Number, number(rest)));
    }
    let known = longest(rest, SIGNS.into_iter());
    let foreign = longest(rest, hints::signs()).max(system_function(rest));
    Some(match foreign > known {
        true => (Kind::Foreign, foreign),
        false if known > 0 => (Kind::Sign, known),
        false => (Kind::Foreign, first.len_utf8()),
    })
}

/// The length of the longest of some signs that a text begins with; 0 where it begins with none.
fn longest<'s>(rest: &str, signs: impl Iterator<Item = &'s str>) -> usize {
    let found = signs.filter(|sign| rest.starts_with(sign));
    found.map(str::len).max().unwrap_or_default()
}

/// The length of the characters of one kind that a text begins with.
fn length(rest: &str, of_kind: fn(char) -> bool) -> usize {
    rest.find(|c| !of_kind(c)).unwrap_or(rest.len())
}

/// The length of a number. `1'b0` is one, so that a message can name it whole.
fn number(rest: &str) -> usize {
    let digits = length(rest, |c| c.is_ascii_digit());
    let after = rest.get(digits..).unwrap_or_default();
    match after.strip_prefix('\'') {
        Some(value) => digits + 1 + length(value, |c| c.is_alphanumeric()),
        None => digits,
    }
}

/// The length of a word such as `$rose`, which is no `$` of `[*1:$]`; 0 where there is none.
fn system_function(rest: &str) -> usize {
    match rest.strip_prefix('$') {
        Some(word) if word.starts_with(begins_name) => 1 + length(word, in_name),
        _ => 0,
    }
}
