//! A sequence's row: word i has the ends of its matches from i, word 64 the starts from which it matches on into letters ⊤.
//!
//! Word i has no bit below i, and bit i only where the sequence has an empty match; the words above n are 0. Each rule answers the starts of the matches that are not
//! empty, which are kept beside the rows.
use crate::below::Below;
use crate::operators::*;
use crate::walks;
use crate::words::{made, mapped, put_letters, starts_where, zeros, PLACES};
use crate::{Row, TOP};

/// Fills the row of a sequence from what stands below it, for n samples, and answers the starts of its matches that are not empty.
#[inline(always)]
pub fn put(own: &mut Row, below: &Below, n: usize, op: u8, x: u8, y: u8) -> u64 {
    match op {
        LETTER => letter(own, below.row(x)[0], n),
        THEN => then(own, below, n, x, y),
        FUSED => fused(own, below, n, x, y),
        EITHER => either(own, below, x, y),
        EMPTY => empty(own, n),
        _ => repeat(own, below, n, x),
    }
}

/// A letter's match from i ends at i + 1. The word `b` has no bit from n on, so the words from n on come out 0.
#[inline(never)]
fn letter(own: &mut Row, b: u64, n: usize) -> u64 {
    put_letters(own, n, b << 1);
    own[TOP] = PLACES[n];
    b
}

/// Both rows have 0 above n, so all words are joined alike.
#[inline(never)]
fn either(own: &mut Row, below: &Below, x: u8, y: u8) -> u64 {
    for (word, (a, b)) in own.iter_mut().zip(below.row(x).iter().zip(below.row(y))) {
        *word = a | b;
    }
    below.starts(x) | below.starts(y)
}

/// The empty match alone.
#[inline(never)]
fn empty(own: &mut Row, n: usize) -> u64 {
    own[..=n].copy_from_slice(&PLACES[..=n]);
    own[n + 1..].fill(0);
    0
}

/// The same row as another's.
fn copied(own: &mut Row, below: &Below, x: u8) -> u64 {
    *own = *below.row(x);
    below.starts(x)
}

/// `##1`: the second match begins at an end of the first. Where one side is a letter there is one place to look at, and where it is the empty match the other side is
/// all there is: no ends are walked.
#[inline(never)]
fn then(own: &mut Row, below: &Below, n: usize, x: u8, y: u8) -> u64 {
    match (below.op(x), below.op(y)) {
        (EMPTY, _) => copied(own, below, y),
        (_, EMPTY) => copied(own, below, x),
        (_, LETTER) => then_letter(own, below.row(x), below.starts(y), n),
        (LETTER, _) => letter_then(own, below.starts(x), below, y, n),
        _ => walks::then(own, below, n, x, y),
    }
}

/// R ##1 b: an end of R where b holds, moved on by one.
fn then_letter(own: &mut Row, a: &Row, b: u64, n: usize) -> u64 {
    let starts = mapped(own, a, n, |ends, _| ends & b);
    // From an end at n the letter is the first ⊤.
    own[TOP] = a[TOP] | starts_where(a, n, |ends, _| ends >> n & 1);
    starts
}

/// b ##1 R: from a place where b holds, what R matches from the next.
fn letter_then(own: &mut Row, b: u64, below: &Below, y: u8, n: usize) -> u64 {
    let r = below.row(y);
    let mut left = b;
    for (word, &ends) in own[..n].iter_mut().zip(&r[1..]) {
        *word = ends & (left & 1).wrapping_neg();
        left >>= 1;
    }
    zeros(own, n);
    // The first may also be the first letter ⊤, where R is then empty or goes on.
    let onward = (r[n] | r[TOP]) & PLACES[n];
    own[TOP] = b & (r[TOP] >> 1) | onward;
    b & (below.matched(y, n) >> 1)
}

/// `##0`: the second match begins at the last letter of the first; neither is empty.
#[inline(never)]
fn fused(own: &mut Row, below: &Below, n: usize, x: u8, y: u8) -> u64 {
    match (below.op(x), below.op(y)) {
        (_, LETTER) => fused_letter(own, below.row(x), below.starts(y), n),
        (LETTER, _) => letter_fused(own, below.starts(x), below, y, n),
        _ => walks::fused(own, below, n, x, y),
    }
}

/// R ##0 b: the ends of R after a letter where b holds.
fn fused_letter(own: &mut Row, a: &Row, b: u64, n: usize) -> u64 {
    let starts = mapped(own, a, n, |ends, place| (ends & !place) >> 1 & b);
    own[TOP] = a[TOP];
    starts
}

/// b ##0 R: from a place where b holds, what R matches from there.
fn letter_fused(own: &mut Row, b: u64, below: &Below, y: u8, n: usize) -> u64 {
    let r = below.row(y);
    let mut left = b;
    for ((word, &ends), &place) in own[..n].iter_mut().zip(r).zip(PLACES) {
        *word = ends & !place & (left & 1).wrapping_neg();
        left >>= 1;
    }
    zeros(own, n);
    own[TOP] = (b | PLACES[n]) & r[TOP];
    b & below.starts(y)
}

/// One match, or one that is not empty and then the repetition from its end. A repetition of a repetition is the same once more, and that of a letter ends anywhere in
/// the run of samples that have it.
#[inline(never)]
fn repeat(own: &mut Row, below: &Below, n: usize, x: u8) -> u64 {
    match below.op(x) {
        REPEAT | EMPTY => copied(own, below, x),
        LETTER => runs(own, below.starts(x), n),
        _ => walks::repeat(own, below, n, x),
    }
}

/// b[*1:$]: adding the start's place to the samples carries on to the place after the run, and all places that change are the start, which is none, and the ends.
fn runs(own: &mut Row, b: u64, n: usize) -> u64 {
    made(own, n, |place| {
        let from = b & place.wrapping_neg();
        ((from + place) ^ from) & !place
    });
    // The run that goes on into the letters ⊤ is the last one, from above the last sample without b.
    let all = u64::MAX >> (63 - n);
    let without = all >> 1 & !b;
    let up_to_it = u64::MAX.checked_shr(without.leading_zeros());
    own[TOP] = all & !up_to_it.unwrap_or(0);
    b
}
