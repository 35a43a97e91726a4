//! Mistakes of a delay with nothing before it: what is to be written depends on what follows, and on what is due.
use super::forms::bare;
use super::own::STRENGTH;
use super::Hint;
use crate::assertion::Sort;
use crate::notation::hints;
use crate::notation::levels::DELAY;
use crate::notation::mistake::Mistake;
use crate::notation::operands::Wanted;
use crate::notation::parser::Parser;
use crate::notation::sorts::{Part, IMPLICATIONS};

impl Parser<'_> {
    /// The mistake of a `##` with nothing before it. A mistake in what follows it is told first, since what is to
    /// be written depends on its sort.
    pub fn leading_delay(&mut self, wanted: Wanted) -> Mistake {
        let sign = self.take();
        let after = match self.after_delay() {
            Ok(after) => after,
            Err(mistake) => return mistake,
        };
        let hint = hints::leading_delay(&after);
        if hint.form().is_none() {
            return self.mistake(sign.start, hint.to_string());
        }
        let rest = match self.part(DELAY, Wanted::Any) {
            Ok(rest) => rest,
            Err(mistake) => return mistake,
        };
        let words = match (wanted, rest.sort) {
            (Wanted::Sort(Sort::Property), Sort::Boolean | Sort::Sequence)
                if !self.implies_ahead() =>
            {
                self.delayed(hint, rest)
            }
            (Wanted::Any | Wanted::Sort(Sort::Property), Sort::Property) => {
                self.delayed_property(hint, rest)
            }
            _ => self.told_with(hint, &[('R', Some(rest))]),
        };
        self.mistake(sign.start, words)
    }

    /// Whether an implication follows, so that what was read belongs to its left side.
    fn implies_ahead(&self) -> bool {
        let mut depth = 0;
        for token in [self.peek()].into_iter().chain(self.upcoming()) {
            depth += i32::from(token.text == "(") - i32::from(token.text == ")");
            match depth {
                0 if IMPLICATIONS.contains(&token.text) => return true,
                0.. => {}
                _ => return false,
            }
        }
        false
    }

    /// A delay before a sequence, where a property is due.
    fn delayed(&self, hint: Hint, rest: Part) -> String {
        let hint = self.with_parts(hint, &[('R', Some(rest))]);
        match hint.instead() {
            Some(instead) => {
                let weak = format!(" or `weak({instead})`: {STRENGTH}");
                let strong = hint.map(|instead| format!("strong({instead})"));
                format!("{strong}{weak}")
            }
            None => hint.to_string(),
        }
    }

    /// A delay before a property: of a sequence in strong or weak it goes inside, and of any other the property
    /// is asked where the delay ends.
    fn delayed_property(&self, hint: Hint, rest: Part) -> String {
        let text = self.own(rest).unwrap_or("P");
        let called = hint.form().unwrap_or_default().replace('R', text);
        for word in ["strong", "weak"] {
            let inside = text
                .strip_prefix(word)
                .map(str::trim)
                .filter(|it| bare(it) != *it);
            if let Some(inside) = inside {
                let texts = [('R', sequence(bare(inside)))];
                let inner = hint
                    .with(&texts, &texts)
                    .map(|instead| format!("{word}({instead})"));
                return inner.called(called).to_string();
            }
        }
        let texts = [('R', "1".to_string())];
        let made = hint
            .with(&texts, &texts)
            .map(|instead| format!("({instead} #-# {text})"));
        let more = match made.instead() {
            Some(_) => ", or with |-> for #-# where the record may end before",
            None => "",
        };
        format!("{}{more}", made.called(called))
    }
}

/// A sequence that stands after a delay.
fn sequence(text: &str) -> String {
    let loose = text.contains('@') || text.split_whitespace().any(|word| word == "or");
    match loose {
        true => format!("({text})"),
        false => text.to_string(),
    }
}
