//! Tests of the notation.
mod bytes;
mod chains;
mod comment;
mod declaring;
mod derived;
mod edges;
mod following;
mod meanings;
mod mistakes;
mod numbered;
mod page;
mod reading;
mod round_trip;
mod writing;

use super::*;
pub use crate::testing::{rising, table as table_of, table_2, Random};

impl Random {
    /// Samples of signals 0 to 7, at most `most` of them, thin or dense.
    pub fn samples(&mut self, most: usize) -> Vec<u64> {
        let count = self.below(most + 1);
        let dense = self.below(3);
        let sample = |random: &mut Random| {
            let [one, two] = [random.next() & 255, random.next() & 255];
            [one, one | two, one & two][dense]
        };
        (0..count).map(|_| sample(self)).collect()
    }
}

/// A text over the signals a to h, which are 0 to 7.
pub fn declared(text: &str) -> String {
    format!("signals a b c d e f g h\n{text}")
}

/// The table of a text over the signals a to h.
pub fn table(text: &str) -> Vec<u8> {
    match read(&declared(text)) {
        Ok(read) => read.assertion.table(),
        Err(mistake) => panic!("{text}\n{mistake}"),
    }
}

/// Line, column and words of the mistake in a text over the signals a to h, whose first line is
/// line 2.
pub fn mistake(text: &str) -> (usize, usize, String) {
    let mistake = match read(&declared(text)) {
        Ok(read) => panic!("{text} was read as {:?}", read.assertion),
        Err(mistake) => mistake,
    };
    (mistake.line, mistake.column, mistake.words)
}
