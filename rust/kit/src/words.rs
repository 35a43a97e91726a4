//! Words for messages: things that are counted, and what is repeated of an input.

/// The characters of an input's word that a message repeats, at most.
const REPEATED: usize = 40;

/// `1 sample`, `3 samples`.
pub fn count(number: usize, thing: &str) -> String {
    match number {
        1 => format!("1 {thing}"),
        _ => format!("{number} {thing}s"),
    }
}

/// `a`, `a and b`, `a, b and c`.
pub fn list(words: &[String]) -> String {
    match words {
        [first @ .., before, last] => {
            let first: String = first.iter().map(|word| format!("{word}, ")).collect();
            format!("{first}{before} and {last}")
        }
        _ => words.concat(),
    }
}

/// Numbers in ascending order, those in a row together: `3`, `0 to 2`, `0 to 2, 5 and 7`.
pub fn ranges(numbers: &[usize]) -> String {
    let in_a_row = |before: &usize, after: &usize| before + 1 == *after;
    let range = |numbers: &[usize]| match numbers {
        [first, .., last] => format!("{first} to {last}"),
        _ => numbers.iter().map(usize::to_string).collect(),
    };
    let ranges: Vec<String> = numbers.chunk_by(in_a_row).map(range).collect();
    list(&ranges)
}

/// A line for each of the numbered things, aligned: `sample 5   55 ns`, `sample 10  105 ns`. They
/// stand in the order of their numbers.
pub fn numbered(thing: &str, lines: &[(usize, String)]) -> String {
    let digits = lines.last().map_or(1, |(last, _)| last.to_string().len());
    let line = |(number, words): &(usize, String)| format!("{thing} {number:<digits$}  {words}\n");
    lines.iter().map(line).collect()
}

/// From the first of some times to the last, `15 ns to 105 ns`, or the only one, `at 15 ns`; nothing where
/// there is none.
pub fn span<T>(times: &[T], show: impl Fn(&T) -> String) -> Option<String> {
    match times {
        [] => None,
        [time] => Some(format!("at {}", show(time))),
        [first, .., last] => Some(format!("{} to {}", show(first), show(last))),
    }
}

/// Whether a character has no shape of its own: it moves the cursor or the direction of writing, or
/// has no width.
pub fn unseen(character: char) -> bool {
    character.is_control()
        || matches!(character,
            '\u{ad}' | '\u{61c}' | '\u{200b}'..='\u{200f}' | '\u{2028}'..='\u{202e}'
            | '\u{2060}'..='\u{206f}' | '\u{feff}')
}

/// A character as a terminal can show it.
pub fn printable(character: char) -> char {
    match unseen(character) {
        true => '\u{fffd}',
        false => character,
    }
}

/// A word of an input, cut where it is long.
pub fn shortened(word: &str) -> String {
    match word.char_indices().nth(REPEATED) {
        Some((bytes, _)) => format!("{}..", word.get(..bytes).unwrap_or_default()),
        None => word.to_string(),
    }
}

/// A text of more than so many characters without its middle, cut at blanks: `(a ##1 a .. b)[*0:3]`.
pub fn cut(text: &str, most: usize) -> String {
    let characters: Vec<char> = text.chars().collect();
    if characters.len() <= most {
        return text.to_string();
    }
    let last = most / 3;
    let first: String = characters.iter().take(most - last - 4).collect();
    let last: String = characters.iter().skip(characters.len() - last).collect();
    let first = first.rsplit_once(' ').map_or(first.as_str(), |cut| cut.0);
    let last = last.split_once(' ').map_or(last.as_str(), |cut| cut.1);
    format!("{first} .. {last}")
}

#[cfg(test)]
mod tests {
    use super::*;

    #[test]
    fn one_thing_has_no_s() {
        let counts = [0, 1, 2].map(|number| count(number, "byte"));
        assert_eq!(counts, ["0 bytes", "1 byte", "2 bytes"]);
    }

    #[test]
    fn the_last_of_a_list_comes_after_and() {
        let list = |words: &[&str]| list(&words.iter().map(|w| w.to_string()).collect::<Vec<_>>());
        assert_eq!([list(&[]), list(&["a"])], ["", "a"]);
        assert_eq!(list(&["a", "b"]), "a and b");
        assert_eq!(list(&["a", "b", "c", "d"]), "a, b, c and d");
    }

    #[test]
    fn numbers_in_a_row_stand_together() {
        assert_eq!([ranges(&[]), ranges(&[7])], ["", "7"]);
        assert_eq!([ranges(&[0, 1]), ranges(&[0, 2])], ["0 to 1", "0 and 2"]);
        assert_eq!(ranges(&[0, 1, 2, 3, 5, 7, 8]), "0 to 3, 5 and 7 to 8");
    }

    #[test]
    fn what_cannot_be_seen_is_replaced() {
        let shown: String = "a\u{1b}é\n\u{202e}\u{200b}写"
            .chars()
            .map(printable)
            .collect();
        assert_eq!(shown, "a\u{fffd}é\u{fffd}\u{fffd}\u{fffd}写");
    }

    #[test]
    fn a_long_word_is_cut_between_characters() {
        assert_eq!(shortened(&"é".repeat(40)), "é".repeat(40));
        assert_eq!(shortened(&"é".repeat(41)), "é".repeat(40) + "..");
    }

    #[test]
    fn a_long_text_loses_its_middle() {
        assert_eq!(cut("a ##1 b", 7), "a ##1 b");
        // of 18 the last 6 are kept, and the first 8, for ` .. ` has 4: `aé ##1 b` and `##1 cc`
        assert_eq!(cut("aé ##1 b ##1 b ##1 cc", 18), "aé ##1 .. cc");
        // without a blank it is cut anywhere
        assert_eq!(cut(&"é".repeat(19), 18), "éééééééé .. éééééé");
    }
}
