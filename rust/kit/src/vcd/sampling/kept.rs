//! The samples that are kept of those that a waveform has.
//!
//! Before some time only the last few are: there it may be seen too late what is kept, so a sample
//! without a known value, or an edge that may have been one, is told only where it is still among them
//! at the end. From that time on they are kept until there are enough.
use super::super::bit::Bit;
use super::{Keep, Run};
use std::collections::VecDeque;
use xistomar::LONGEST;

/// A sample.
#[derive(Clone, Copy, Debug, PartialEq, Eq)]
pub struct Sample {
    /// Its time.
    pub time: u128,
    /// Its signals.
    pub value: u64,
    /// How many of its values were unknown, and read as the plan says.
    pub unknown: usize,
}

/// What was seen at a time at which a sample is due.
#[derive(Clone, Copy, Debug)]
pub enum Seen {
    /// A sample.
    Sample(Sample),
    /// A sample in which the value of a wire is not known.
    Unknown { time: u128, wire: usize, bit: Bit },
    /// It is not known whether the clock had an edge: its values before and after.
    Unclear { time: u128, bits: [Bit; 2] },
}

impl Seen {
    /// When it was seen.
    pub fn time(&self) -> u128 {
        match self {
            Seen::Sample(sample) => sample.time,
            Seen::Unknown { time, .. } | Seen::Unclear { time, .. } => *time,
        }
    }

    /// Whether it is a sample, known or not.
    fn is_sample(&self) -> bool {
        !matches!(self, Seen::Unclear { .. })
    }
}

/// What is kept.
pub struct Kept {
    /// The time before which only the last few are kept, and how many.
    split: u128,
    last: usize,
    before: VecDeque<Seen>,
    /// From that time on: how many there may be, and whether reading stops then.
    after: Vec<Sample>,
    most: usize,
    stops: bool,
}

impl Kept {
    /// Nothing yet.
    pub fn of(keep: Keep) -> Kept {
        let (split, last, most, stops) = match keep {
            Keep::First(count) => (0, 0, count.unwrap_or(LONGEST), count.is_some()),
            Keep::Last(count) => (u128::MAX, count, 0, false),
            Keep::Around(time, count) => (time, count / 2, count.div_ceil(2), true),
            Keep::Windows(windows) => (0, 0, windows.most(), false),
        };
        Kept {
            split,
            last,
            before: VecDeque::new(),
            after: Vec::new(),
            most,
            stops,
        }
    }

    /// How many samples there are.
    pub fn count(&self) -> usize {
        let before = self.before.iter().filter(|seen| seen.is_sample());
        before.count().saturating_add(self.after.len())
    }

    /// Whether no more are asked for.
    pub fn full(&self) -> bool {
        self.stops && self.after.len() >= self.most
    }

    /// Whether this is a sample for which there is no room.
    pub fn overflows(&self, seen: &Seen) -> bool {
        seen.is_sample() && seen.time() >= self.split && self.after.len() >= self.most
    }

    /// The first time of those from `due` on, a step apart and before `end`, whose samples may be kept
    /// where they are all alike: the others need not be taken one by one.
    pub fn first(&self, due: u128, end: u128, step: u128) -> u128 {
        let stretch = end.min(self.split).saturating_sub(due);
        let count = stretch.checked_next_multiple_of(step).unwrap_or(stretch);
        let count = count.checked_div(step).unwrap_or_default();
        let spare = count.saturating_sub(self.last as u128);
        due.saturating_add(spare.saturating_mul(step))
    }

    /// Takes what was seen. Where nothing makes up for it any more, a trouble is given back.
    pub fn take(&mut self, seen: Seen) -> Result<(), Seen> {
        if seen.time() < self.split {
            self.put(seen);
            return Ok(());
        }
        match seen {
            Seen::Sample(sample) => self.after.push(sample),
            trouble => return Err(trouble),
        }
        Ok(())
    }

    /// Takes what was seen before the time, and lets go of what is not among the last samples any
    /// more: an edge that may have been one goes where as many follow it. Of several such edges in a
    /// row all go at once, so the first stands for them.
    fn put(&mut self, seen: Seen) {
        let again = self.before.back().is_some_and(|last| !last.is_sample());
        if seen.is_sample() || !again {
            self.before.push_back(seen);
        }
        let samples = self.before.iter().filter(|seen| seen.is_sample());
        let mut samples = samples.count();
        while let Some(first) = self.before.front().copied() {
            let spare = samples > self.last || samples == self.last && !first.is_sample();
            if !spare {
                return;
            }
            self.before.pop_front();
            samples -= usize::from(first.is_sample());
        }
    }

    /// The first trouble that is kept, with the number of the sample that it is or precedes.
    pub fn trouble(&self) -> Option<(usize, &Seen)> {
        let is_trouble = |seen: &Seen| !matches!(seen, Seen::Sample(_));
        let place = self.before.iter().position(is_trouble)?;
        Some((place, self.before.get(place)?))
    }

    /// The samples, where so many unknown values of the clock were read as the plan says.
    pub fn run(self, clock_read: usize) -> Run {
        let before = self.before.into_iter().filter_map(|seen| match seen {
            Seen::Sample(sample) => Some(sample),
            _ => None,
        });
        Run {
            samples: before.chain(self.after).collect(),
            clock_read,
        }
    }
}
