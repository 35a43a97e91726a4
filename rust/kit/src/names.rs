//! The names of signals.

/// The signals of a sample.
pub const SIGNALS: u8 = 64;

/// What a name is made of, for messages.
pub const NAMES_HAVE: &str = "a name has letters, digits, _ and ., and begins with a letter or _";

/// Names given to signals 0 to 63, in the order in which they were declared.
#[derive(Clone, Debug, Default, PartialEq, Eq)]
pub struct Names {
    declared: Vec<(String, u8)>,
}

impl Names {
    /// No names: every signal is called by its number.
    pub fn none() -> Names {
        Names::default()
    }

    /// Names for signals 0, 1, .. in order.
    #[cfg(test)]
    pub fn of(list: &[&str]) -> Names {
        let mut names = Names::none();
        for (number, name) in (0..).zip(list) {
            names.declare(name, number).unwrap();
        }
        names
    }

    /// Declares a signal's name. The error says why it can't be: the name or the number is taken, or
    /// the number is above 63.
    pub fn declare(&mut self, name: &str, number: u8) -> Result<(), String> {
        if number >= SIGNALS {
            return Err(format!("signal {number} is above 63"));
        }
        if self.number(name).is_some() {
            return Err(format!("the name {name} is declared twice"));
        }
        if let Some(taken) = self.declared(number) {
            return Err(format!("signal {number} is already named {taken}"));
        }
        self.declared.push((name.to_string(), number));
        Ok(())
    }

    /// The number of a declared name.
    pub fn number(&self, name: &str) -> Option<u8> {
        let found = self.declared.iter().find(|(known, _)| known == name)?;
        Some(found.1)
    }

    /// The declared name of a signal.
    pub fn declared(&self, number: u8) -> Option<&str> {
        let found = self.declared.iter().find(|(_, known)| *known == number)?;
        Some(&found.0)
    }

    /// A signal's declared name, or `s` and its number.
    pub fn name(&self, number: u8) -> String {
        if let Some(name) = self.declared(number) {
            return name.to_string();
        }
        self.free(format!("s{number}"))
    }

    /// A name that is not declared: this one, with underscores after it where it is taken.
    pub fn free(&self, mut name: String) -> String {
        while self.number(&name).is_some() {
            name.push('_');
        }
        name
    }

    /// The names of those signals that another file names too.
    pub fn within(&self, other: &Names) -> Names {
        let named = |(_, number): &&(String, u8)| other.declared(*number).is_some();
        let declared = self.declared.iter().filter(named).cloned().collect();
        Names { declared }
    }

    /// All declared names with their numbers, in the order of their declaration.
    pub fn all(&self) -> &[(String, u8)] {
        &self.declared
    }
}

/// Whether a name may begin with a character.
pub fn begins_name(character: char) -> bool {
    character.is_alphabetic() || character == '_'
}

/// Whether a character may stand in a name.
pub fn in_name(character: char) -> bool {
    begins_name(character) || character.is_ascii_digit() || character == '.'
}

/// `: did you mean ack?` for the word that is nearest to a wrong one; nothing where none is near.
pub fn hint<'a>(wrong: &str, words: impl Iterator<Item = &'a str>) -> String {
    let near = nearest(wrong, words);
    near.map_or(String::new(), |near| format!(": did you mean {near}?"))
}

/// The word that differs least from a wrong one, if it differs by a slip or two.
pub fn nearest<'a>(wrong: &str, words: impl Iterator<Item = &'a str>) -> Option<&'a str> {
    let near = |word: &'a str| (slips(wrong, word), word);
    let allowed = wrong.chars().take(LOOKED_AT).count() / 3 + 1;
    words
        .map(near)
        .filter(|(slips, _)| *slips <= allowed)
        .min_by_key(|(slips, _)| *slips)
        .map(|(_, word)| word)
}

/// The characters of a word that are compared, at most.
const LOOKED_AT: usize = 100;

/// How many characters must be put in, left out or changed to make one word of the other.
fn slips(one: &str, other: &str) -> usize {
    let other: Vec<char> = other.chars().take(LOOKED_AT).collect();
    let mut row: Vec<usize> = (0..=other.len()).collect();
    for (place, left) in one.chars().take(LOOKED_AT).enumerate() {
        let mut next = vec![place + 1];
        for ((above, pair), right) in row.iter().skip(1).zip(&row).zip(&other) {
            let changed = pair + usize::from(left != *right);
            let before = next.last().copied().unwrap_or_default();
            next.push(changed.min(above + 1).min(before + 1));
        }
        row = next;
    }
    row.last().copied().unwrap_or_default()
}

#[cfg(test)]
mod tests {
    use super::*;

    #[test]
    fn a_name_and_a_number_are_declared_once() {
        let mut names = Names::none();
        assert_eq!(names.declare("ack", 0), Ok(()));
        assert!(names.declare("ack", 1).unwrap_err().contains("twice"));
        assert!(names
            .declare("drop", 0)
            .unwrap_err()
            .contains("already named ack"));
        assert!(names.declare("drop", 64).unwrap_err().contains("above 63"));
        assert_eq!(names.number("ack"), Some(0));
        assert_eq!(names.all(), [("ack".to_string(), 0)]);
    }

    #[test]
    fn a_signal_without_a_name_never_takes_another_ones() {
        let mut names = Names::none();
        assert_eq!(names.name(5), "s5");
        names.declare("s5", 3).unwrap();
        assert_eq!(names.name(3), "s5");
        assert_eq!(names.name(5), "s5_");
    }

    #[test]
    fn the_nearest_word_is_one_slip_away() {
        assert_eq!(slips("strobe", "strob"), 1);
        assert_eq!(slips("", "abc"), 3);
        assert_eq!(slips("ack", "akc"), 2);
        assert_eq!(
            nearest("strob", ["ack", "strobe"].into_iter()),
            Some("strobe")
        );
        assert_eq!(nearest("zz", ["ack", "strobe"].into_iter()), None);
        assert_eq!(nearest(&"z".repeat(1000), ["ack"].into_iter()), None);
    }
}
