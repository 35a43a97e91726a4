//! A boolean's word: the samples that satisfy it.
use crate::operators::*;
use crate::signals::Signals;
use crate::Row;

/// The word of a boolean, from those of the booleans below it.
#[inline(never)]
pub fn word(below: &[Row], signals: &mut Signals, op: u8, x: u8, y: u8) -> u64 {
    let all = signals.all_samples();
    let at = |v: u8| below[usize::from(v)][0];
    match op {
        CONSTANT => all * u64::from(x),
        SIGNAL => signals.word(x),
        BOOLEAN_NOT => all & !at(x),
        BOOLEAN_AND => at(x) & at(y),
        RISEN => risen(signals.word(x)),
        FALLEN => all & fallen(signals.word(x)),
        _ => at(x) | at(y),
    }
}

/// The samples in which the signal has risen since the sample before.
fn risen(signal: u64) -> u64 {
    signal & !before(signal)
}

/// The samples in which the signal has fallen, and the place after the last sample where that has it.
fn fallen(signal: u64) -> u64 {
    !signal & before(signal)
}

/// The places that have the signal in the sample before. The first has none, since the sample before it is all zero.
fn before(signal: u64) -> u64 {
    signal << 1
}
