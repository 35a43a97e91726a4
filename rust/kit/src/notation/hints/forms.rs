//! Forms with letters for their parts: P and Q for properties, R and S for sequences, a, b and c for booleans.
use crate::names::in_name;

/// Letters, each with the text that stands for it.
pub type Texts = [(char, String)];

/// A form with texts put in for its letters.
pub fn filled(form: &str, texts: &Texts) -> String {
    words(form).map(|word| put_in(word, texts)).collect()
}

/// The same for what is to be written: parentheses around a letter alone go where its text needs none.
pub fn written(form: &str, texts: &Texts) -> String {
    let mut form = form.to_string();
    for (letter, _) in texts.iter().filter(|(_, text)| tight(text)) {
        for before in ["(", " ", "!"] {
            let enclosed = format!("{before}({letter})");
            form = form.replace(&enclosed, &format!("{before}{letter}"));
        }
        if let Some(rest) = form.strip_prefix(&format!("({letter})")) {
            form = format!("{letter}{rest}");
        }
    }
    filled(&form, texts)
}

/// The names and numbers of a form, and what stands between them.
fn words(form: &str) -> impl Iterator<Item = &str> {
    let bytes: Vec<(usize, char)> = form.char_indices().collect();
    let alike = |one: &(usize, char), next: &(usize, char)| in_name(one.1) == in_name(next.1);
    let lengths: Vec<usize> = bytes
        .chunk_by(alike)
        .map(|chunk| chunk.iter().map(|(_, c)| c.len_utf8()).sum())
        .collect();
    lengths.into_iter().scan(0, move |from, length| {
        let word = form.get(*from..*from + length);
        *from += length;
        word
    })
}

fn put_in<'w>(word: &'w str, texts: &'w Texts) -> &'w str {
    let is = |letter: char| word.chars().eq([letter]);
    let found = texts.iter().find(|(letter, _)| is(*letter));
    found.map_or(word, |(_, text)| text)
}

/// Whether a text is a name or a constant, or has parentheses around all of it, with a word before them or none.
pub fn tight(text: &str) -> bool {
    let rest = text.trim_start_matches(in_name);
    rest.is_empty() || enclosed(rest).is_some()
}

/// What stands in parentheses that are around all of a text.
pub fn enclosed(text: &str) -> Option<&str> {
    let inside = text.strip_prefix('(')?.strip_suffix(')')?;
    let mut depth = 0i32;
    let lowest = inside.chars().map(|c| {
        depth += i32::from(c == '(') - i32::from(c == ')');
        depth
    });
    (lowest.min().unwrap_or(0) >= 0).then(|| inside.trim())
}

/// A text without the parentheses around all of it.
pub fn bare(text: &str) -> &str {
    enclosed(text).unwrap_or(text)
}

#[cfg(test)]
mod tests {
    use super::*;

    fn texts(texts: &[(char, &str)]) -> Vec<(char, String)> {
        let owned = texts.iter().map(|(c, text)| (*c, text.to_string()));
        owned.collect()
    }

    #[test]
    fn letters_that_stand_alone_are_filled() {
        let given = texts(&[('R', "a ##1 b"), ('b', "ack")]);
        assert_eq!(filled("b[->2] ##1 R", &given), "ack[->2] ##1 a ##1 b");
        assert_eq!(filled("if (b) rose(b2)", &given), "if (ack) rose(b2)");
    }

    #[test]
    fn parentheses_go_where_a_text_needs_none() {
        let given = texts(&[('a', "req"), ('b', "x | y"), ('P', "strong(z)")]);
        assert_eq!(written("(!(a) | (b))", &given), "(!req | (x | y))");
        assert_eq!(written("always not (P)", &given), "always not strong(z)");
        assert_eq!(
            written("(P) until ((P) and (b))", &given),
            "strong(z) until (strong(z) and (x | y))"
        );
        assert_eq!(written("rose(a)", &given), "rose(req)");
    }

    #[test]
    fn parentheses_around_all_of_a_text() {
        assert!(tight("ack") && tight("(a | b)") && tight("strong(a ##1 (b))"));
        assert!(!tight("!a") && !tight("(a) | (b)") && !tight("a b"));
        assert_eq!(bare("( a or b )"), "a or b");
        assert_eq!(bare("(a) or (b)"), "(a) or (b)");
    }
}
