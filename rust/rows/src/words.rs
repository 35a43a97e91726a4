//! Sets of places, and rows made word by word without a walk.
use crate::{Row, TOP};

/// The set of place i alone, for each i: a loop over a row's words reads them beside it.
pub static PLACES: &[u64; 64] = &PLACES_IN_LINE.0;
static PLACES_IN_LINE: InLine = InLine(places(1));

/// The set of place i + 1 alone, where a match of one letter from i ends. The last has none.
static AFTER: InLine = InLine(places(2));

/// Words that begin where a line of the cache does, so that two can be read as one operand.
#[repr(align(64))]
struct InLine([u64; 64]);

const fn places(first: u64) -> [u64; 64] {
    let mut all = [0; 64];
    let mut i = 0;
    while i < 64 {
        all[i] = first << i;
        i += 1;
    }
    all
}

/// How many words the loops below take at a time, so that short records are not made 64 words long and no loop has a rest. Words above n, of which some are made
/// too, come out 0 by the rules.
const EIGHT: usize = 8;

/// The places of an eighth of a row, of which there are eight.
fn places_of(eighth: usize) -> &'static [u64; EIGHT] {
    &PLACES_IN_LINE.0.as_chunks().0[eighth % EIGHT]
}

/// Makes the words 0 to n of a row whose matches are of one letter, from the places where they end.
pub fn put_letters(own: &mut Row, n: usize, ends: u64) {
    let (eighths, rest) = parted(own, n);
    for (own, after) in eighths.iter_mut().zip(AFTER.0.as_chunks::<EIGHT>().0) {
        for j in 0..EIGHT {
            own[j] = ends & after[j];
        }
    }
    clear(rest);
}

/// Makes the words 0 to n by the rule from the set of their place, and puts 0 into those above.
pub fn made(own: &mut Row, n: usize, rule: impl Fn(u64) -> u64) {
    let (eighths, rest) = parted(own, n);
    for (e, own) in eighths.iter_mut().enumerate() {
        let places = places_of(e);
        for j in 0..EIGHT {
            own[j] = rule(places[j]);
        }
    }
    clear(rest);
}

/// Makes each word by the rule, which answers the last letters of the matches from the same word of another row and the set of its place; answers the starts that
/// have some. Last letters are below n, and an end is one place on.
pub fn mapped(own: &mut Row, a: &Row, n: usize, rule: impl Fn(u64, u64) -> u64) -> u64 {
    let (eighths, rest) = parted(own, n);
    let a = a.as_chunks::<EIGHT>().0;
    let mut starts = Starts::default();
    for (e, own) in eighths.iter_mut().enumerate().rev() {
        let (a, places) = (&a[e % EIGHT], places_of(e));
        let mut letters = [0; EIGHT];
        for j in 0..EIGHT {
            letters[j] = rule(a[j], places[j]);
            own[j] = letters[j] << 1;
        }
        starts.add(&letters);
    }
    clear(rest);
    starts.joined()
}

/// The starts for which the rule answers other than 0, from the words of a row and the set of their place. It answers no place 63.
pub fn starts_where(row: &Row, n: usize, rule: impl Fn(u64, u64) -> u64) -> u64 {
    let row = row.as_chunks::<EIGHT>().0;
    let mut starts = Starts::default();
    for e in (0..=n / EIGHT).rev() {
        let (row, places) = (&row[e % EIGHT], places_of(e));
        let mut found = [0; EIGHT];
        for j in 0..EIGHT {
            found[j] = rule(row[j], places[j]);
        }
        starts.add(&found);
    }
    starts.joined()
}

/// A set of starts that is made by eighths from the last down: the even ones, and the odd ones moved down by one, so that two are added by the same operations.
#[derive(Default)]
struct Starts([u64; 2]);

impl Starts {
    /// Adds the next eight starts, those whose words are not 0. No word has place 63, so adding all places below it carries into that one.
    fn add(&mut self, words: &[u64; EIGHT]) {
        for two in words.as_chunks::<2>().0.iter().rev() {
            for (starts, word) in self.0.iter_mut().zip(two) {
                *starts = *starts << 2 | (word + (u64::MAX >> 1)) >> 63;
            }
        }
    }

    fn joined(self) -> u64 {
        self.0[0] | self.0[1] << 1
    }
}

/// The set with the next lower place added where it belongs to it: sets are made from the last place down. A sum is one addition with carry.
pub fn with_next(set: u64, belongs: bool) -> u64 {
    set + set + u64::from(belongs)
}

/// The words of a row by eighths up to the one that has word n, and those above but word 64.
fn parted(own: &mut Row, n: usize) -> (&mut [[u64; EIGHT]], &mut [u64]) {
    let (made, rest) = own[..TOP].split_at_mut((n / EIGHT + 1) * EIGHT);
    (made.as_chunks_mut().0, rest)
}

/// Puts 0 into the words from one on, but not into word 64.
pub fn zeros(own: &mut Row, from: usize) {
    clear(&mut own[from..TOP]);
}

/// Puts 0 into the words. A full record leaves none, and is spared the call.
fn clear(words: &mut [u64]) {
    if !words.is_empty() {
        words.fill(0);
    }
}
