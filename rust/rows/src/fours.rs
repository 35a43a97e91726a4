//! The words of a row joined by fours, for rows whose starts have many ends: what four neighbouring places lead to is looked up at once.
use crate::{Row, TOP};

/// How many fours the places of a word have, and in how many ways a set can have four places.
const FOURS: usize = TOP / 4;
const WAYS: usize = 16;

/// For each four places, and each set of them, their words joined.
pub struct Fours([[u64; WAYS]; FOURS]);

impl Fours {
    /// The fours from one on are made of the row's words; those below are of no places yet.
    pub fn of(row: &Row, from: usize) -> Self {
        let mut fours = Self([[0; WAYS]; FOURS]);
        for four in from..FOURS {
            fours.add(row, four);
        }
        fours
    }

    /// Makes a four of the row's words: with each place the sets so far are joined with its word.
    pub fn add(&mut self, row: &Row, four: usize) {
        let joined = &mut self.0[four];
        for place in 0..4 {
            let word = row[4 * four + place];
            let (without, with) = joined.split_at_mut(1 << place);
            for (with, without) in with.iter_mut().zip(without) {
                *with = *without | word;
            }
        }
    }

    /// The words at the places of a set, joined: two fours for each byte of the set, from the lowest that has a place.
    pub fn joined(&self, places: u64) -> u64 {
        let bytes = places.to_le_bytes();
        let lowest = places.trailing_zeros() as usize / 8;
        let (fours, _) = self.0.as_chunks::<2>();
        let mut ends = 0;
        for (byte, [low, high]) in bytes.iter().zip(fours).skip(lowest) {
            ends |= low[usize::from(byte % 16)] | high[usize::from(byte / 16)];
        }
        ends
    }
}
