//! What follows the header: times, and the changes of values.
use super::bit::Bit;
use super::codes::Codes;
use super::header::{skip_section, Header};
use super::tokens::{shown, Tokens};
use super::Wrong;
use std::io::BufRead;

/// The words that declare, and so stand in the header alone.
const DECLARING: [&[u8]; 5] = [
    b"$var",
    b"$scope",
    b"$upscope",
    b"$timescale",
    b"$enddefinitions",
];

/// One thing that a waveform says.
#[derive(Clone, Copy, Debug, PartialEq, Eq)]
pub enum Change {
    /// A time begins, or goes on where it is the same as before.
    Time(u64),
    /// A value: [`Changes::digits`] for the variables of [`Changes::code`].
    Value,
    /// A number or a string for the variables of [`Changes::code`].
    NoBits,
    /// `$dumpoff`: no value is known until it is dumped again.
    Off,
    /// `$dumpon`: all values follow.
    On,
}

/// The changes of a waveform, one at a time.
pub struct Changes<'a, R> {
    tokens: &'a mut Tokens<R>,
    /// The codes that the header declares: any other is a sign of damage.
    declared: Codes<'a, bool>,
    digits: Vec<u8>,
    code: Vec<u8>,
    time: u64,
}

impl<'a, R: BufRead> Changes<'a, R> {
    /// What follows a header that was read.
    pub fn of(header: &'a Header, tokens: &'a mut Tokens<R>) -> Changes<'a, R> {
        let mut declared = Codes::new();
        for variable in &header.variables {
            declared.put(&variable.code, true);
        }
        Changes {
            tokens,
            declared,
            digits: Vec::new(),
            code: Vec::new(),
            time: 0,
        }
    }

    /// The digits of the last value, the leftmost first: at least one, and each a [`Bit`].
    pub fn digits(&self) -> &[u8] {
        &self.digits
    }

    /// The code of the last value.
    pub fn code(&self) -> &[u8] {
        &self.code
    }

    /// The mistake, at the line of the last word.
    pub fn wrong(&self, words: impl Into<String>) -> Wrong {
        self.tokens.wrong(words)
    }

    /// The next change, if there is one. `$dumpvars` and its like only group values, and what is said
    /// in other sections is passed over.
    pub fn next(&mut self) -> Result<Option<Change>, Wrong> {
        loop {
            let Some(token) = self.tokens.token()? else {
                return Ok(None);
            };
            match token {
                b"$end" | b"$dumpvars" | b"$dumpall" => {}
                b"$dumpoff" => return Ok(Some(Change::Off)),
                b"$dumpon" => return Ok(Some(Change::On)),
                [b'$', ..] => self.section()?,
                _ => return self.change().map(Some),
            }
        }
    }

    /// Passes over a section that is none of the changes.
    fn section(&mut self) -> Result<(), Wrong> {
        let token = self.tokens.last();
        if token.starts_with(b"$dumpports") {
            return Err(self.extended());
        }
        if DECLARING.contains(&token) || token == b"$" {
            return Err(self.unexpected("after $enddefinitions a time or a value"));
        }
        skip_section(self.tokens)
    }

    /// The change that begins with the last word.
    fn change(&mut self) -> Result<Change, Wrong> {
        let (first, rest) = self.tokens.last().split_first().unwrap_or((&0, &[]));
        match first {
            b'#' => self.new_time(),
            b'b' | b'B' => {
                self.digits.clear();
                self.digits.extend_from_slice(rest);
                self.vector()
            }
            b'r' | b'R' | b's' | b'S' => self.code_after().map(|()| Change::NoBits),
            b'p' => Err(self.extended()),
            digit if Bit::of(*digit).is_none() => {
                Err(self.unexpected("a time such as #10 or a value such as 1!"))
            }
            _ if rest.is_empty() => Err(self.unexpected("a value with its code, such as 1!,")),
            digit => {
                self.digits.clear();
                self.digits.push(*digit);
                self.code.clear();
                self.code.extend_from_slice(rest);
                self.known_code().map(|()| Change::Value)
            }
        }
    }

    /// The time in the last word. Times never go back.
    fn new_time(&mut self) -> Result<Change, Wrong> {
        let digits = self.tokens.last().iter().skip(1);
        let mut time = Some(0u64).filter(|_| digits.len() > 0);
        for digit in digits {
            if !digit.is_ascii_digit() {
                return Err(self.unexpected("a whole number after #"));
            }
            let digit = u64::from(digit - b'0');
            time = time.and_then(|time| time.checked_mul(10)?.checked_add(digit));
        }
        match time {
            None => Err(self.unexpected("a time from #0 to #18446744073709551615")),
            Some(time) if time < self.time => {
                let before = self.time;
                let words = format!("the time goes back from #{before} to #{time}");
                Err(self.wrong(words))
            }
            Some(time) => {
                self.time = time;
                Ok(Change::Time(time))
            }
        }
    }

    /// A vector whose digits are taken already, and whose code follows.
    fn vector(&mut self) -> Result<Change, Wrong> {
        let wrong = self.digits.iter().any(|digit| Bit::of(*digit).is_none());
        if wrong || self.digits.is_empty() {
            return Err(self.unexpected("b and the digits 0, 1, x or z"));
        }
        self.code_after().map(|()| Change::Value)
    }

    /// Takes the next word as the code of the value before it.
    fn code_after(&mut self) -> Result<(), Wrong> {
        let line = self.tokens.line();
        let Some(code) = self.tokens.token()? else {
            let words = "the file ends after a value: its code is expected";
            return Err(Wrong::Line(line, words.to_string()));
        };
        self.code.clear();
        self.code.extend_from_slice(code);
        self.known_code()
    }

    /// Asks that the code of the last value is declared.
    fn known_code(&self) -> Result<(), Wrong> {
        match self.declared.get(&self.code) {
            true => Ok(()),
            false => {
                let code = shown(&self.code);
                Err(self.wrong(format!(
                    "a value for the code {code}, which no $var declares"
                )))
            }
        }
    }

    fn unexpected(&self, expected: &str) -> Wrong {
        let token = shown(self.tokens.last());
        self.wrong(format!("{expected} is expected, and here stands {token}"))
    }

    fn extended(&self) -> Wrong {
        let token = shown(self.tokens.last());
        self.wrong(format!(
            "{token} is of extended VCD ($dumpports), which is not understood: dump with $dumpvars"
        ))
    }
}
