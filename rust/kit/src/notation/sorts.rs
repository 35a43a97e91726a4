//! The sort of each part of a text, and what is made of it where another sort is due.
use super::hints::forms::{bare, tight};
use super::hints::own::{turned, STRENGTH};
use super::lexer::{Kind, Place, Token};
use super::mistake::Mistake;
use super::parser::Parser;
use super::RESERVED;
use crate::assertion::{Operator, Sort};

/// The characters of a text's part that a message repeats, at most.
const REPEATED: usize = 40;

/// The signs of implications.
pub const IMPLICATIONS: [&str; 4] = ["|->", "|=>", "#-#", "#=#"];

/// A part that was read: its node, and where it stands in the text.
#[derive(Clone, Copy, Debug)]
pub struct Part {
    /// The index of its node.
    pub index: usize,
    /// The node's sort.
    pub sort: Sort,
    /// Where it begins.
    pub start: Place,
    /// The bytes of the text up to its end.
    pub end: usize,
    /// For a repetition, the bytes of the text up to its `[`.
    pub bracket: Option<usize>,
}

/// A sort in words.
pub fn called(sort: Sort) -> &'static str {
    match sort {
        Sort::Boolean => "a boolean",
        Sort::Sequence => "a sequence",
        Sort::Property => "a property",
    }
}

impl Parser<'_> {
    /// The node of a part as an operand of an operator, whose own text begins at `from`. A boolean
    /// becomes a letter where a sequence is due; any other difference is a mistake.
    pub fn operand_of(
        &mut self,
        operator: Operator,
        place: usize,
        part: Part,
        from: Place,
    ) -> Result<usize, Mistake> {
        let due = operator.operands().get(place).copied();
        match (part.sort, due.unwrap_or(part.sort)) {
            (given, due) if given == due => Ok(part.index),
            (Sort::Boolean, Sort::Sequence) => {
                self.node(Operator::Letter, part.index, 0, part.start)
            }
            (_, due) => {
                let last = place + 1 == operator.operands().len();
                let hint = match due {
                    Sort::Boolean if operator.is_derived() => {
                        ": b[->m] and b[=m] count samples that satisfy a boolean".to_string()
                    }
                    Sort::Boolean if last && part.bracket.is_some() => {
                        self.repetition_hint(part, from)
                    }
                    Sort::Boolean => self.boolean_hint(operator, part).to_string(),
                    Sort::Property if last && self.stray() => {
                        return Err(self.unexpected("an operator"));
                    }
                    Sort::Property => self.property_hint(operator, part, last),
                    Sort::Sequence => String::new(),
                };
                Err(self.wrong_sort(part, due, &hint))
            }
        }
    }

    /// Whether the token ahead goes on with a part and is no operator. Where the part does not fit,
    /// this is the mistake to tell: `a |-> b before c`.
    pub fn stray(&self) -> bool {
        let Token { kind, text, .. } = self.peek();
        let word = kind == Kind::Word && !RESERVED.contains(&text);
        kind == Kind::Foreign || word && !self.starts_line()
    }

    /// The mistake of an operator that makes a property where a sequence is wanted.
    pub fn no_sequence(&self, operator: Token) -> Mistake {
        let hint = match operator.text {
            "not" => ": a boolean is turned round by !",
            "and" => ": booleans are joined by &",
            "until" => ": there `a until b` is written `((a)[*0] or (a)[*1:$]) ##1 b`",
            _ => "",
        };
        let words = format!(
            "`{}` makes a property, and a sequence is due here, as everywhere in strong(..), in weak(..) \
             and left of |->, |=>, #-# and #=#{hint}",
            operator.text
        );
        self.mistake(operator.start, words)
    }

    /// The mistake of a part whose sort is not the one that is due.
    pub fn wrong_sort(&self, part: Part, due: Sort, hint: &str) -> Mistake {
        let (due, given) = (called(due), called(part.sort));
        let shown = self.excerpt(part.start.offset, part.end);
        let words = format!("{due} is due here, and `{shown}` is {given}{hint}");
        self.mistake(part.start, words)
    }

    /// A repetition on the right of `!`, `&` or `|` was probably meant for all that the sign joins.
    fn repetition_hint(&self, part: Part, from: Place) -> String {
        let Some(bracket) = part.bracket else {
            return String::new();
        };
        let whole = self.excerpt(from.offset, bracket);
        let repetition = self.excerpt(bracket, part.end);
        format!(": to repeat the whole, write ({whole}){repetition}")
    }

    /// What to write where a boolean is due and something else stands.
    fn boolean_hint(&self, operator: Operator, part: Part) -> &'static str {
        match (operator, self.operator(part.index)) {
            (_, Some(Operator::Either)) => ": booleans are joined by |",
            _ if part.sort != Sort::Property => "",
            (Operator::Not, _) => ": a property is turned round by not",
            (Operator::And, _) => ": properties are joined by and",
            (Operator::Or, _) => ": properties are joined by or",
            _ => "",
        }
    }

    /// What to write where a property is due and something else stands.
    fn property_hint(&self, operator: Operator, part: Part, last: bool) -> String {
        let implication = last && IMPLICATIONS.contains(&self.peek().text);
        let not = operator == Operator::PropertyNot && part.sort == Sort::Boolean;
        let own = self.own(part).unwrap_or("..");
        let text = bare(own);
        match (not, implication) {
            (true, true) => format!(
                ": for `not {own}` write `{}`, or put parentheses around the implication",
                turned(text)
            ),
            (true, false) => format!(
                ": for `not {own}` write `strong({})` or `not strong({text})`",
                turned(text)
            ),
            (_, true) => ": an implication here needs parentheses around it".to_string(),
            _ => format!(": write `strong({text})` or `weak({text})`: {STRENGTH}"),
        }
    }

    /// The mistake of two booleans that `and` joins.
    pub fn booleans_joined(&self, left: Part, right: Part) -> Mistake {
        let [a, b] = [left, right].map(|part| self.own(part).unwrap_or(".."));
        let both = self.joined_by_sign(left, right);
        let hint = match IMPLICATIONS.contains(&self.peek().text) {
            true => format!(": for `{a} and {b}` write `{both}`"),
            false => {
                let each = [a, b].map(|text| format!("strong({})", bare(text)));
                let each = each.join(" and ");
                format!(": for `{a} and {b}` write `strong({both})` or `{each}`")
            }
        };
        self.wrong_sort(left, Sort::Property, &hint)
    }

    /// `a & b`, with parentheses around what binds less tightly.
    fn joined_by_sign(&self, left: Part, right: Part) -> String {
        let operand = |part: Part| {
            let text = self.own(part).unwrap_or("..");
            let loose = self.operator(part.index) == Some(Operator::Or) && !tight(text);
            match loose {
                true => format!("({text})"),
                false => text.to_string(),
            }
        };
        format!("{} & {}", operand(left), operand(right))
    }

    /// A part of the text as a message repeats it: its first line, cut where it is long.
    pub fn excerpt(&self, from: usize, to: usize) -> String {
        let part = self.text().get(from..to).unwrap_or_default();
        let line = part.split(['\n', '\r']).next().unwrap_or_default();
        let code = line.split("//").next().unwrap_or_default().trim_end();
        let mut shown: String = code.chars().take(REPEATED).collect();
        if shown.len() < part.trim_end().len() {
            shown.push_str(" ..");
        }
        shown
    }
}
