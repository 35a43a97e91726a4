//! Why samples cannot be taken, in words.
use super::super::bit::Bit;
use super::kept::Seen;
use super::sampler::Sampler;
use super::windows::MOST;
use super::{Keep, Moments};
use xistomar::LONGEST;

impl Sampler<'_> {
    /// What was seen is no sample that can be kept; it is the one with this number, or before it.
    pub fn told(&self, number: usize, seen: &Seen) -> String {
        match seen {
            // a sample that is known is never told
            Seen::Sample(_) => String::new(),
            Seen::Unknown { time, wire, bit } => self.unknown(number, *wire, *bit, *time),
            Seen::Unclear { time, bits } => self.unclear(*bits, *time),
        }
    }

    /// A value in a sample is not known.
    fn unknown(&self, number: usize, wire: usize, bit: Bit, time: u128) -> String {
        let wire = self.plan.wires.get(wire);
        let (name, path) = wire.map_or(("", ""), |wire| (&wire.name, &wire.path));
        let (time, ways) = (self.plan.scale.show(time), self.ways());
        let at = match self.plan.moments {
            Moments::Edges(..) if !self.plan.settled => "just before",
            _ => "at",
        };
        let whose = match self.plan.keep {
            Keep::Windows(_) => " of all",
            _ => "",
        };
        format!(
            "sample {number}{whose}, {at} {time}: {name} ({path}) is {bit}; --x 0 or --x 1 says how to \
             read such values, {ways}"
        )
    }

    /// It is not known whether the clock had an edge.
    fn unclear(&self, [before, after]: [Bit; 2], time: u128) -> String {
        let (word, path) = self.clock();
        let (time, ways) = (self.plan.scale.show(time), self.ways());
        let why = match (before, after) {
            (_, Bit::Off) => format!("is not dumped from {time} on ($dumpoff)"),
            (Bit::Off, _) => format!("is not dumped until {time} ($dumpoff)"),
            _ => format!("goes from {before} to {after} at {time}"),
        };
        let few = match self.plan.keep {
            Keep::Last(_) => ", and fewer samples follow than are asked for",
            _ => "",
        };
        format!(
            "the clock {path} {why}, so it is not known whether there was a {word}{few}; {ways}, --x 0 \
             or --x 1 says how to read unknown values"
        )
    }

    /// How samples can be kept without what stands in the way.
    fn ways(&self) -> &'static str {
        match self.plan.keep {
            Keep::First(_) => "--from starts later, --count or --to ends sooner",
            Keep::Last(_) => "--from or a smaller --last starts later, --to ends sooner",
            Keep::Around(..) => "--from or a smaller --count starts later, --to ends sooner",
            Keep::Windows(_) => "--from starts later, --to ends sooner",
        }
    }

    /// The edge and the clock that are asked for.
    fn clock(&self) -> (&'static str, &str) {
        match self.plan.moments {
            Moments::Edges(edge, clock) => {
                let wire = self.plan.wires.get(clock);
                (edge.word(), wire.map_or("", |wire| &wire.path))
            }
            _ => ("", ""),
        }
    }

    /// There are more samples than fit.
    pub fn too_many(&self, time: u128) -> String {
        let time = self.plan.scale.show(time);
        match self.plan.keep {
            Keep::Windows(windows) => {
                let most = windows.most();
                format!(
                    "more than {most} samples, which {MOST} windows hold, and the next is at {time}; \
                     --from T and --to T choose a part of them"
                )
            }
            _ => format!(
                "more than {LONGEST} samples, which is all that a record holds, and the next is at \
                 {time}; --count {LONGEST} takes the first, --last {LONGEST} the last, --around T those \
                 around a time, --from T and --to T those between two, and --windows makes several \
                 records"
            ),
        }
    }

    /// There is no sample at all.
    pub fn none(&self) -> String {
        let show = |time: u128| self.plan.scale.show(time);
        let what = match self.plan.moments {
            Moments::Edges(..) => {
                let (word, path) = self.clock();
                format!("no {word} of {path}")
            }
            Moments::Every(_) => "nothing to sample".to_string(),
            Moments::Changes => "no change of a chosen signal".to_string(),
        };
        let when = match (self.plan.from, self.plan.to) {
            (None, None) => String::new(),
            (Some(from), None) => format!(" at or after {}", show(from)),
            (None, Some(to)) => format!(" up to {}", show(to)),
            (Some(from), Some(to)) => format!(" from {} to {}", show(from), show(to)),
        };
        let end = match self.now {
            _ if self.past() => String::new(),
            Some(now) => format!(", and the file ends at {}", show(self.plan.scale.time(now))),
            None => ", and the file has no values".to_string(),
        };
        let empty = match self.plan.keep {
            Keep::First(_) => "; --count 0 writes a record without samples",
            _ => "",
        };
        format!("there is {what}{when}{end}{empty}")
    }
}
