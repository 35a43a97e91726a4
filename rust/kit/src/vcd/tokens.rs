//! The words of a waveform, which white space parts.
use super::Wrong;
use crate::words;
use std::io::{self, BufRead};

/// The bytes of a word, at most. The longest are the values of vectors, a byte a bit.
pub const LONGEST: usize = 1 << 20;

/// The words of a stream, one at a time.
pub struct Tokens<R> {
    input: R,
    token: Vec<u8>,
    /// The line of the last word, from 1.
    line: u64,
    /// The line that is being read.
    reached: u64,
}

impl<R: BufRead> Tokens<R> {
    /// The words of this stream.
    pub fn of(input: R) -> Tokens<R> {
        Tokens {
            input,
            token: Vec::new(),
            line: 1,
            reached: 1,
        }
    }

    /// The stream, of which the words up to here are read, and more may be.
    pub fn into_input(self) -> R {
        self.input
    }

    /// Passes over the mark that some editors write before a text in UTF-8, which nobody sees.
    pub fn skip_mark(&mut self) -> Result<(), Wrong> {
        let begin = filled(&mut self.input).map_err(Wrong::Unreadable)?;
        if begin.starts_with("\u{feff}".as_bytes()) {
            self.input.consume("\u{feff}".len());
        }
        Ok(())
    }

    /// The next word, if there is one.
    pub fn token(&mut self) -> Result<Option<&[u8]>, Wrong> {
        self.token.clear();
        self.skip_space().map_err(Wrong::Unreadable)?;
        self.line = self.reached;
        let mut goes_on = true;
        while goes_on {
            goes_on = self.more().map_err(Wrong::Unreadable)?;
            if self.token.len() > LONGEST {
                let words = "a word of over a mebibyte: this is no VCD file";
                return Err(self.wrong(words));
            }
        }
        Ok(Some(self.token.as_slice()).filter(|token| !token.is_empty()))
    }

    /// The last word.
    pub fn last(&self) -> &[u8] {
        &self.token
    }

    /// The mistake, at the line of the last word.
    pub fn wrong(&self, words: impl Into<String>) -> Wrong {
        Wrong::Line(self.line, words.into())
    }

    /// The line of the last word.
    pub fn line(&self) -> u64 {
        self.line
    }

    fn skip_space(&mut self) -> io::Result<()> {
        loop {
            let buffer = filled(&mut self.input)?;
            let blank = buffer.iter().take_while(|byte| is_space(**byte));
            let (mut count, mut lines) = (0, 0);
            for byte in blank {
                count += 1;
                lines += u64::from(*byte == b'\n');
            }
            let done = count < buffer.len() || buffer.is_empty();
            self.reached = self.reached.saturating_add(lines);
            self.input.consume(count);
            if done {
                return Ok(());
            }
        }
    }

    /// Adds what the buffer has of the word, and answers whether the word may go on.
    fn more(&mut self) -> io::Result<bool> {
        let buffer = filled(&mut self.input)?;
        let end = buffer.iter().position(|byte| is_space(*byte));
        let count = end.unwrap_or(buffer.len());
        let goes_on = end.is_none() && !buffer.is_empty();
        self.token
            .extend_from_slice(buffer.get(..count).unwrap_or_default());
        self.input.consume(count);
        Ok(goes_on)
    }
}

/// What the stream has next; nothing at its end. An interrupted read is tried again.
fn filled(input: &mut impl BufRead) -> io::Result<&[u8]> {
    while let Err(error) = input.fill_buf() {
        if error.kind() != io::ErrorKind::Interrupted {
            return Err(error);
        }
    }
    input.fill_buf()
}

fn is_space(byte: u8) -> bool {
    matches!(byte, b' ' | b'\t' | b'\n' | b'\r' | 0x0b | 0x0c)
}

/// A word as text that a terminal can show.
pub fn clean(token: &[u8]) -> String {
    let text = String::from_utf8_lossy(token);
    text.chars().map(words::printable).collect()
}

/// A word for a message, cut where it is long.
pub fn shown(token: &[u8]) -> String {
    words::shortened(&clean(token.get(..200).unwrap_or(token)))
}

#[cfg(test)]
mod tests {
    use super::*;
    use std::io::Read;

    fn words(text: &[u8]) -> Vec<(u64, String)> {
        let mut tokens = Tokens::of(text);
        let mut words = Vec::new();
        while let Some(token) = tokens.token().unwrap() {
            let token = String::from_utf8(token.to_vec()).unwrap();
            words.push((tokens.line(), token));
        }
        words
    }

    #[test]
    fn words_have_the_line_that_they_stand_on() {
        let expected = [(1, "$date"), (2, "#0"), (2, "1!"), (4, "0!")];
        let expected = expected.map(|(line, word)| (line, word.to_string()));
        assert_eq!(words(b" $date\r\n\t#0 1!\r\n\x0b\n0!"), expected);
        assert_eq!(words(b" $date\n#0\t1! \n\n0!\n\n"), expected);
        assert_eq!(words(b" \r\n"), []);
    }

    #[test]
    fn a_mark_before_the_text_is_passed_over() {
        for text in ["\u{feff}$date", "$date"] {
            let mut tokens = Tokens::of(text.as_bytes());
            tokens.skip_mark().unwrap();
            assert_eq!(tokens.token().unwrap(), Some(&b"$date"[..]));
        }
    }

    #[test]
    fn a_word_may_be_split_over_buffers() {
        let text = b"$enddefinitions $end\n#12 1!";
        for capacity in 1..text.len() {
            let mut tokens = Tokens::of(io::BufReader::with_capacity(capacity, &text[..]));
            let mut found = Vec::new();
            while let Some(token) = tokens.token().unwrap() {
                found.push(String::from_utf8(token.to_vec()).unwrap());
            }
            assert_eq!(found, ["$enddefinitions", "$end", "#12", "1!"]);
        }
    }

    #[test]
    fn an_endless_word_is_a_mistake() {
        let endless = io::BufReader::new(b"\n\n".chain(io::repeat(b'a')));
        let mut tokens = Tokens::of(endless);
        let wrong = tokens.token().unwrap_err();
        assert!(matches!(wrong, Wrong::Line(3, words) if words.contains("mebibyte")));
    }

    #[test]
    fn a_word_of_a_mebibyte_is_read() {
        let text = vec![b'b'; LONGEST];
        let mut tokens = Tokens::of(&text[..]);
        assert_eq!(tokens.token().unwrap().map(<[u8]>::len), Some(LONGEST));
        let text = vec![b'b'; LONGEST + 1];
        assert!(Tokens::of(&text[..]).token().is_err());
    }

    #[test]
    fn a_word_is_shown_without_control_characters() {
        assert_eq!(shown(b"a\x1b[2Jb\xff"), "a\u{fffd}[2Jb\u{fffd}");
        assert_eq!(shown(&[b'a'; 90]), format!("{}..", "a".repeat(40)));
    }
}
