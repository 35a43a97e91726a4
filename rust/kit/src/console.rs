//! Where the commands write.
use crate::failure::Failure;
use std::io::{ErrorKind, Write};

/// The bytes of a long answer that are written at once, about.
const AT_ONCE: usize = 1 << 16;

/// Standard output and standard error, or what stands in for them in a test.
pub struct Console<'a> {
    /// Answers go here.
    pub out: &'a mut dyn Write,
    /// Messages and progress go here.
    pub err: &'a mut dyn Write,
    /// Whether a person watches `err` on a terminal, so that progress is shown.
    pub live: bool,
}

impl Console<'_> {
    /// Writes an answer, at once. An output that is closed or full is a failure, not a panic.
    pub(crate) fn say(&mut self, text: &str) -> Result<(), Failure> {
        self.out
            .write_all(text.as_bytes())
            .and_then(|()| self.out.flush())
            .map_err(|error| match error.kind() {
                ErrorKind::BrokenPipe => Failure::Unheard,
                _ => Failure::Failed(format!("the answer cannot be written: {error}")),
            })
    }

    /// Writes an answer of many lines, some thousand at once.
    pub(crate) fn say_all(&mut self, lines: impl Iterator<Item = String>) -> Result<(), Failure> {
        let mut text = String::new();
        for line in lines {
            text.push_str(&line);
            if text.len() > AT_ONCE {
                self.say(&text)?;
                text.clear();
            }
        }
        self.say(&text)
    }

    /// Writes a message. Where even that fails there is nobody left to tell.
    pub(crate) fn tell(&mut self, text: &str) {
        let _ = self.err.write_all(text.as_bytes());
        let _ = self.err.flush();
    }
}
