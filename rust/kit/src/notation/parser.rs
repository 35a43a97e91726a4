//! A text that is being read, straight into a [`Builder`]: its tokens, names and nodes.
use super::hints;
use super::lexer::{Kind, Lexer, Place, Token};
use super::mistake::Mistake;
use super::sorts::Part;
use super::{Text, RESERVED};
use crate::assertion::{Builder, Operator, MOST_NODES};
use crate::names::{self, Names};
use crate::words::{shortened, unseen};
use std::collections::BTreeMap;

/// How deep parts may stand in one another. The text of a table never needs as much, and the stack
/// holds far more.
const DEEPEST: usize = 400;

/// How deep parts may stand in one that is read for a hint alone.
const DEEPEST_HINT: usize = 30;

/// The words of the notation that begin a part.
pub const PREFIXES: [&str; 9] = [
    "not",
    "nexttime",
    "s_nexttime",
    "always",
    "s_eventually",
    "strong",
    "weak",
    "rose",
    "fell",
];

/// A text that is being read, with one token looked at ahead.
pub struct Parser<'a> {
    text: &'a str,
    lexer: Lexer<'a>,
    ahead: Token<'a>,
    /// The place after the last token that was taken.
    last: Place,
    /// The line that a declaration stands on: it ends there.
    line: Option<usize>,
    names: Names,
    defined: BTreeMap<&'a str, usize>,
    builder: Builder,
    depth: usize,
}

impl<'a> Parser<'a> {
    /// At the beginning of a text.
    pub fn new(text: &'a str) -> Parser<'a> {
        let mut lexer = Lexer::new(text);
        let ahead = lexer.token();
        Parser {
            text,
            lexer,
            ahead,
            last: ahead.start,
            line: None,
            names: Names::none(),
            defined: BTreeMap::new(),
            builder: Builder::new(),
            depth: 0,
        }
    }

    /// What was read, in the kit's order.
    pub fn finish(self) -> Text {
        Text {
            names: self.names,
            assertion: self.builder.finish().tidy(),
        }
    }

    /// The declared names.
    pub fn names(self) -> Names {
        self.names
    }

    /// A new node over all of the text from a place to the last token taken.
    pub fn built(
        &mut self,
        operator: Operator,
        x: usize,
        y: usize,
        start: Place,
    ) -> Result<Part, Mistake> {
        self.built_counted((operator, 0), x, y, start)
    }

    /// The same for an operator with its fourth byte.
    pub fn built_counted(
        &mut self,
        (operator, fourth): (Operator, u8),
        x: usize,
        y: usize,
        start: Place,
    ) -> Result<Part, Mistake> {
        let index = self.counted((operator, fourth), x, y, start)?;
        Ok(Part {
            index,
            sort: operator.sort(),
            start,
            end: self.last.offset,
            bracket: None,
        })
    }

    /// Adds a node; `place` is where its text stands.
    pub fn node(
        &mut self,
        operator: Operator,
        x: usize,
        y: usize,
        place: Place,
    ) -> Result<usize, Mistake> {
        self.counted((operator, 0), x, y, place)
    }

    /// Adds a node with its fourth byte.
    pub fn counted(
        &mut self,
        (operator, fourth): (Operator, u8),
        x: usize,
        y: usize,
        place: Place,
    ) -> Result<usize, Mistake> {
        let node = self.builder.add_counted(operator, x, y, fourth);
        node.ok_or_else(|| self.mistake(place, too_large()))
    }

    /// The token ahead; the end where a declaration's line ends.
    pub fn peek(&self) -> Token<'a> {
        self.in_line(self.ahead)
    }

    /// A token that is looked at, or the end where it stands after a declaration's line.
    fn in_line(&self, token: Token<'a>) -> Token<'a> {
        match self.line {
            Some(line) if token.start.line > line => Token::end_at(self.last),
            _ => token,
        }
    }

    /// The token after the one ahead.
    pub fn second(&self) -> Token<'a> {
        self.in_line(self.lexer.clone().token())
    }

    /// The tokens after the one ahead, up to the end of the text.
    pub fn upcoming(&self) -> impl Iterator<Item = Token<'a>> {
        let mut lexer = self.lexer.clone();
        std::iter::from_fn(move || Some(lexer.token()).filter(|token| token.kind != Kind::End))
    }

    /// Takes the token ahead.
    pub fn take(&mut self) -> Token<'a> {
        let token = self.ahead;
        self.last = token.end;
        self.ahead = self.lexer.token();
        token
    }

    /// Whether the token ahead stands right after the last one taken.
    pub fn touches(&self) -> bool {
        self.ahead.start == self.last
    }

    /// Whether the token ahead stands on a later line than the last one taken.
    pub fn starts_line(&self) -> bool {
        self.ahead.start.line > self.last.line
    }

    /// The operator of a node that was added.
    pub fn operator(&self, index: usize) -> Option<Operator> {
        self.builder.node(index).map(|node| node.operator)
    }

    /// The number of the signal that a node is, where it is one.
    pub fn signal_of(&self, index: usize) -> Option<u8> {
        let node = self.builder.node(index);
        let signal = node.filter(|node| node.operator == Operator::Signal);
        signal.map(|node| node.x)
    }

    /// The name of the signal that a node turns round with `!`, where it does.
    pub fn turned_signal(&self, index: usize) -> Option<String> {
        let node = self.builder.node(index);
        let not = node.filter(|node| node.operator == Operator::Not)?;
        let signal = self.signal_of(usize::from(not.x))?;
        Some(self.names.name(signal))
    }

    /// From here on the text ends with the line of the token ahead.
    pub fn begin_line(&mut self) {
        self.line = Some(self.ahead.start.line);
    }

    /// The text goes on after the line.
    pub fn end_line(&mut self) {
        self.line = None;
    }

    /// Whether a signal or a boolean has this name.
    pub fn knows(&self, name: &str) -> bool {
        self.names.number(name).is_some() || self.defined.contains_key(name)
    }

    /// Gives a boolean a name.
    pub fn define(&mut self, name: &'a str, boolean: usize) {
        self.defined.insert(name, boolean);
    }

    /// The boolean that has this name.
    pub fn defined(&self, name: &str) -> Option<usize> {
        self.defined.get(name).copied()
    }

    /// The number of the signal that has this name.
    pub fn number(&self, name: &str) -> Option<u8> {
        self.names.number(name)
    }

    /// Whether no signal is declared.
    pub fn nameless(&self) -> bool {
        self.names.all().is_empty()
    }

    /// The name that is nearest to one that is not known.
    pub fn nearest(&self, wrong: &str) -> Option<&str> {
        let small = wrong.to_lowercase();
        let declared = self.names.all().iter().map(|(name, _)| name.as_str());
        let known = declared.chain(self.defined.keys().copied());
        let mut alike = known.clone().chain(RESERVED);
        if let Some(same) = alike.find(|word| word.to_lowercase() == small) {
            return Some(same);
        }
        // to a single letter every other is near
        let near = names::nearest(wrong, known.chain(PREFIXES));
        near.filter(|_| wrong.chars().count() > 1)
    }

    /// Goes one part deeper, or says that this is too deep.
    pub fn deeper(&mut self) -> Result<(), Mistake> {
        self.depth += 1;
        match self.depth > DEEPEST {
            true => Err(self.mistake(self.peek().start, too_deep())),
            false => Ok(()),
        }
    }

    /// From here on parts are read for a hint alone, and not so deep: the text has a mistake already.
    pub fn for_hint(&mut self) {
        self.depth = self.depth.max(DEEPEST - DEEPEST_HINT);
    }

    /// Comes back from a part.
    pub fn back(&mut self) {
        self.depth = self.depth.saturating_sub(1);
    }

    /// The declared names, to add to.
    pub fn names_mut(&mut self) -> &mut Names {
        &mut self.names
    }

    /// The whole text.
    pub fn text(&self) -> &'a str {
        self.text
    }

    /// A mistake at a place.
    pub fn mistake(&self, place: Place, words: String) -> Mistake {
        Mistake::at(self.text, place, words)
    }

    /// The message for a token that does not fit: the hint for it, or what was expected.
    pub fn unexpected(&self, expected: &str) -> Mistake {
        let token = self.peek();
        let (unknown, stands) = (!self.knows(token.text), shortened(token.text));
        let operators = ["and", "or", "until", "s_until"].into_iter();
        let near = names::nearest(&token.text.to_lowercase(), operators);
        let words = match (token.kind, hints::of(token.text), near) {
            (_, Some(_), _) if unknown && self.begins_action() => hints::ACTION.to_string(),
            (_, Some(hint), _) if unknown => hint.to_string(),
            (Kind::End, ..) => {
                let all = self.line.map_or("the text", |_| "the line");
                format!("{expected} was expected, and {all} ends here")
            }
            (Kind::Foreign, ..) => format!("{} is not part of the notation", character(token.text)),
            (Kind::Word, _, Some(near)) if unknown && !RESERVED.contains(&token.text) => {
                let hint = format!("did you mean {near}?");
                format!("{expected} was expected, and here stands `{stands}`: {hint}")
            }
            _ => format!("{expected} was expected, and here stands `{stands}`"),
        };
        self.mistake(token.start, words)
    }
}

/// The message where parts stand too deep in one another.
fn too_deep() -> String {
    let deep = format!("more than {DEEPEST} parts stand in one another");
    format!("{deep}, and no table of {MOST_NODES} nodes needs that")
}

/// The message where the nodes are too many.
fn too_large() -> String {
    format!("the table would have more than {MOST_NODES} nodes, and {MOST_NODES} is the most")
}

/// What is not part of the notation: a character that is not ASCII also by its number, and one that
/// cannot be seen by its number alone.
pub fn character(text: &str) -> String {
    match text.chars().next() {
        Some(c) if unseen(c) => format!("the character U+{:04X}", u32::from(c)),
        Some(c) if !c.is_ascii() => format!("`{text}` (U+{:04X})", u32::from(c)),
        _ => format!("`{}`", shortened(text)),
    }
}
