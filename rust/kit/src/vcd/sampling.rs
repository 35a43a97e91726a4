//! Taking samples from a waveform.
//!
//! The values of a time are settled when the next time begins or the file ends: what comes and goes
//! within one time is not seen. A sample is taken
//!
//! - at each edge of a clock, with the values just before its time, or with the settled ones. The
//!   clock's first value is no edge. A clock that goes from or to an unknown value such that it may
//!   have been an edge, or that is not dumped for a while, stops the reading; before the time from
//!   which samples are asked it does no harm, nor where so many samples follow that it cannot be one
//!   of those that are kept, and where unknown values are read as 0 or as 1 the clock's are too.
//! - or every so many femtoseconds, up to the last time, with the settled values. A last time without
//!   a value only says where the waveform ends, as sigrok writes it: nothing was seen at it;
//! - or at each time at which a chosen signal changed, with the settled values, the time of the first
//!   values included.
mod kept;
mod messages;
mod run;
mod sampler;
mod windows;

pub use run::{Run, Taken};
pub use windows::Windows;

use super::changes::{Change, Changes};
use super::choose::{Constant, Wire};
use super::edges::Edge;
use super::time::Scale;
use super::Wrong;
use sampler::Sampler;
use std::io::BufRead;

/// When samples are taken.
#[derive(Clone, Copy, Debug)]
pub enum Moments {
    /// At the edges of the wire with this index.
    Edges(Edge, usize),
    /// Every so many femtoseconds.
    Every(u128),
    /// When a chosen signal changes.
    Changes,
}

/// Which of the samples are kept.
#[derive(Clone, Copy, Debug, PartialEq, Eq)]
pub enum Keep {
    /// The first so many; without a number, more than fit a record are a failure.
    First(Option<usize>),
    /// The last so many.
    Last(usize),
    /// At most so many around a time: half of them, rounded down, before it, the others from it on.
    Around(u128, usize),
    /// All, in windows that overlap.
    Windows(Windows),
}

/// What is asked of a waveform.
#[derive(Debug)]
pub struct Plan {
    /// What its ticks are.
    pub scale: Scale,
    /// The chosen bits, and the clock.
    pub wires: Vec<Wire>,
    /// The signals that are no bits of the waveform.
    pub constants: Vec<Constant>,
    /// When samples are taken.
    pub moments: Moments,
    /// The time before which none is.
    pub from: Option<u128>,
    /// The time after which none is.
    pub to: Option<u128>,
    /// Which of them are kept.
    pub keep: Keep,
    /// How unknown values are read, if at all.
    pub unknown: Option<bool>,
    /// Whether samples at edges have the settled values, not those before.
    pub settled: bool,
}

/// Takes samples until there are enough or the waveform ends.
pub fn take<R: BufRead>(plan: &Plan, changes: &mut Changes<'_, R>) -> Result<Run, Wrong> {
    let mut sampler = Sampler::of(plan);
    while !sampler.full() {
        let Some(change) = changes.next()? else {
            return sampler.end();
        };
        match change {
            Change::Time(time) => sampler.time(time)?,
            // what stands before the first time is of time 0
            _ if !sampler.begun() => sampler.time(0)?,
            _ => {}
        }
        if sampler.past() {
            break;
        }
        sampler.change(change, changes)?;
    }
    sampler.done()
}
