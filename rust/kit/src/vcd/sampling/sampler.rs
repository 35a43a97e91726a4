//! Finding the samples as a waveform is read, change by change.
use super::super::bit::Bit;
use super::super::changes::{Change, Changes};
use super::super::edges::{hidden, unlike, Edge};
use super::super::values::Values;
use super::super::Wrong;
use super::kept::{Kept, Sample, Seen};
use super::{Moments, Plan, Run};
use std::io::BufRead;

/// A waveform that is being sampled.
pub struct Sampler<'a> {
    pub plan: &'a Plan,
    values: Values<'a>,
    /// The time that is being read, in ticks.
    pub now: Option<u64>,
    /// The time of the next sample, where one is taken every so often.
    due: Option<u128>,
    /// Whether a chosen bit has had a value.
    valued: bool,
    /// Whether the time that is being read has had a value, of any variable.
    given: bool,
    /// How many times the clock went to an unknown value.
    clock_read: usize,
    pub kept: Kept,
}

impl<'a> Sampler<'a> {
    /// Nothing is read yet.
    pub fn of(plan: &'a Plan) -> Sampler<'a> {
        Sampler {
            plan,
            values: Values::of(&plan.wires),
            now: None,
            due: None,
            valued: false,
            given: false,
            clock_read: 0,
            kept: Kept::of(plan.keep),
        }
    }

    /// Whether there are as many samples as are asked for.
    pub fn full(&self) -> bool {
        self.kept.full()
    }

    /// Whether a time has begun.
    pub fn begun(&self) -> bool {
        self.now.is_some()
    }

    /// Whether the time that is being read is after the last that is asked for.
    pub fn past(&self) -> bool {
        let now = self.now.map(|now| self.plan.scale.time(now));
        now.zip(self.plan.to).is_some_and(|(now, to)| now > to)
    }

    /// Takes a change of values.
    pub fn change<R: BufRead>(
        &mut self,
        change: Change,
        changes: &Changes<'_, R>,
    ) -> Result<(), Wrong> {
        self.given |= !matches!(change, Change::Time(_));
        match change {
            Change::Time(_) => {}
            Change::Off => self.values.off(),
            Change::On => self.values.on(),
            Change::Value => {
                let changed = self.values.change(changes.code(), changes.digits());
                changed.map_err(|words| changes.wrong(words))?;
            }
            Change::NoBits => {
                if let Some(wire) = self.values.chosen(changes.code()) {
                    let words = format!("a number or a string for {}, which has bits", wire.path);
                    return Err(changes.wrong(words));
                }
            }
        }
        Ok(())
    }

    /// A time begins: the one before it has settled.
    pub fn time(&mut self, next: u64) -> Result<(), Wrong> {
        let until = self.plan.scale.time(next);
        match self.now {
            None => {
                self.due = Some(self.plan.from.unwrap_or(until));
                self.take_due(until)?;
            }
            Some(now) if now < next => {
                self.settle(now)?;
                self.take_due(until)?;
                self.values.turn();
                self.given = false;
            }
            Some(_) => {}
        }
        self.now = Some(next);
        Ok(())
    }

    /// The file ends, and with it its last time.
    pub fn end(mut self) -> Result<Run, Wrong> {
        if let Some(now) = self.now {
            let last = self.plan.scale.time(now);
            self.settle(now)?;
            self.take_due(last.saturating_add(self.given.into()))?;
        }
        self.done()
    }

    /// The samples that are kept, where there are any and each is known.
    pub fn done(self) -> Result<Run, Wrong> {
        if let Some((number, trouble)) = self.kept.trouble() {
            return Err(Wrong::Whole(self.told(number, trouble)));
        }
        match self.kept.count() == 0 && !self.full() {
            true => Err(Wrong::Whole(self.none())),
            false => Ok(self.kept.run(self.clock_read)),
        }
    }

    /// The values of a time have settled.
    fn settle(&mut self, ticks: u64) -> Result<(), Wrong> {
        let time = self.plan.scale.time(ticks);
        match self.plan.moments {
            Moments::Every(_) => Ok(()),
            Moments::Edges(edge, clock) => self.settle_edge(edge, clock, time),
            Moments::Changes => self.settle_changes(time),
        }
    }

    fn settle_edge(&mut self, edge: Edge, clock: usize, time: u128) -> Result<(), Wrong> {
        let value = |values: &[Bit]| values.get(clock).copied().unwrap_or(Bit::Nothing);
        let (before, after) = (value(self.values.before()), value(self.values.now()));
        let from = self.plan.from.unwrap_or_default();
        if before == Bit::Nothing || time < from {
            return Ok(());
        }
        self.clock_read += usize::from(before != after && after.known().is_none());
        let unclear = unlike(before, after) || hidden(before, after, time, from);
        let unclear = unclear && self.plan.unknown.is_none();
        let seen = edge.between(self.read(before), self.read(after));
        let values = match seen.filter(|_| !unclear) {
            None => {
                let bits = [before, after];
                return self.see(Seen::Unclear { time, bits });
            }
            Some(false) => return Ok(()),
            Some(true) if self.plan.settled => self.values.now(),
            Some(true) => self.values.before(),
        };
        self.see(self.sample(values, time))
    }

    fn settle_changes(&mut self, time: u128) -> Result<(), Wrong> {
        let read = |values: &[Bit]| -> Vec<Option<bool>> {
            values.iter().map(|bit| self.read(*bit)).collect()
        };
        let given = self.values.now().iter().any(|bit| *bit != Bit::Nothing);
        let first = given && !self.valued;
        let changed = read(self.values.before()) != read(self.values.now());
        self.valued = given;
        if (first || changed) && time >= self.plan.from.unwrap_or_default() {
            self.see(self.sample(self.values.now(), time))?;
        }
        Ok(())
    }

    /// Takes the samples before a time, with the values that have settled.
    fn take_due(&mut self, end: u128) -> Result<(), Wrong> {
        let Moments::Every(step) = self.plan.moments else {
            return Ok(());
        };
        let to = self.plan.to.unwrap_or(u128::MAX);
        let end = end.min(to.saturating_add(1));
        self.due = self.due.map(|due| self.kept.first(due, end, step));
        while let Some(due) = self.due.filter(|due| *due < end && !self.full()) {
            self.see(self.sample(self.values.now(), due))?;
            self.due = due.checked_add(step);
        }
        Ok(())
    }

    /// A bit as the plan reads it.
    fn read(&self, bit: Bit) -> Option<bool> {
        bit.known().or(self.plan.unknown)
    }

    /// The sample of these values.
    fn sample(&self, values: &[Bit], time: u128) -> Seen {
        let bit_of = |signal: u8, high: bool| u64::from(high).checked_shl(signal.into());
        let constants = self.plan.constants.iter();
        let constants = constants.filter_map(|constant| bit_of(constant.number, constant.high));
        let (mut value, mut unknown) = (constants.fold(0, |all, bit| all | bit), 0);
        for (wire, (place, bit)) in self.plan.wires.iter().zip(values.iter().enumerate()) {
            let Some(signal) = wire.number else { continue };
            let Some(high) = self.read(*bit) else {
                let (wire, bit) = (place, *bit);
                return Seen::Unknown { time, wire, bit };
            };
            value |= bit_of(signal, high).unwrap_or_default();
            unknown += usize::from(bit.known().is_none());
        }
        Seen::Sample(Sample {
            time,
            value,
            unknown,
        })
    }

    /// Takes what was seen, where it can be kept.
    fn see(&mut self, seen: Seen) -> Result<(), Wrong> {
        if self.kept.overflows(&seen) {
            return Err(Wrong::Whole(self.too_many(seen.time())));
        }
        let taken = self.kept.take(seen);
        taken.map_err(|trouble| Wrong::Whole(self.told(self.kept.count(), &trouble)))
    }
}
