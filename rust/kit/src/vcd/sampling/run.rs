//! The samples that were taken, and the records that are made of them.
use super::kept::Sample;
use super::Keep;

/// The samples that were taken, in their order.
#[derive(Debug, PartialEq, Eq)]
pub struct Run {
    /// The samples.
    pub samples: Vec<Sample>,
    /// How many times the clock went to an unknown value, which was read as the plan says.
    pub clock_read: usize,
}

/// The samples of one record.
#[derive(Debug, Default, PartialEq, Eq)]
pub struct Taken {
    /// The samples.
    pub samples: Vec<u64>,
    /// The time of each.
    pub times: Vec<u128>,
    /// How many values were unknown, and read as the plan says.
    pub guessed: usize,
}

impl Run {
    /// The records: one, or where windows are asked for one for each of them.
    pub fn records(&self, keep: Keep) -> Vec<Taken> {
        let Keep::Windows(windows) = keep else {
            return vec![taken(&self.samples)];
        };
        let starts = windows.starts(self.samples.len()).into_iter();
        let ends = |start: usize| start.saturating_add(windows.count).min(self.samples.len());
        let window = |start: usize| self.samples.get(start..ends(start)).unwrap_or_default();
        starts.map(|start| taken(window(start))).collect()
    }

    /// How many values of all samples were unknown.
    pub fn guessed(&self) -> usize {
        self.samples.iter().map(|sample| sample.unknown).sum()
    }
}

fn taken(samples: &[Sample]) -> Taken {
    Taken {
        samples: samples.iter().map(|sample| sample.value).collect(),
        times: samples.iter().map(|sample| sample.time).collect(),
        guessed: samples.iter().map(|sample| sample.unknown).sum(),
    }
}
