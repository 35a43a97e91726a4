//! Windows over a long run of samples: stretches of one length that overlap.

/// The windows of a run, at most.
pub const MOST: usize = 10_000;

/// How windows lie: each is of so many samples, and has the last so many of the one before.
#[derive(Clone, Copy, Debug, PartialEq, Eq)]
pub struct Windows {
    /// The samples of a window, at least 1.
    pub count: usize,
    /// Those that it shares with the one before, fewer than it has.
    pub overlap: usize,
}

impl Windows {
    /// The samples from the beginning of a window to that of the next.
    pub fn step(self) -> usize {
        self.count.saturating_sub(self.overlap).max(1)
    }

    /// The samples of a run, at most.
    pub fn most(self) -> usize {
        let steps = self.step().saturating_mul(MOST - 1);
        self.count.saturating_add(steps)
    }

    /// Where the windows of a run begin. The last is moved to end with the run, and overlaps more.
    pub fn starts(self, samples: usize) -> Vec<usize> {
        let last = samples.saturating_sub(self.count);
        let before = (0..last).step_by(self.step());
        before.chain([last]).collect()
    }
}

#[cfg(test)]
mod tests {
    use super::*;

    fn starts(count: usize, overlap: usize, samples: usize) -> Vec<usize> {
        Windows { count, overlap }.starts(samples)
    }

    #[test]
    fn the_last_window_ends_with_the_run() {
        // all in one
        assert_eq!(starts(4, 2, 1), [0]);
        assert_eq!(starts(4, 2, 4), [0]);
        // 0 to 3, and 1 to 4
        assert_eq!(starts(4, 2, 5), [0, 1]);
        // 0 to 3, and 2 to 5
        assert_eq!(starts(4, 2, 6), [0, 2]);
        assert_eq!(starts(4, 2, 7), [0, 2, 3]);
        assert_eq!(starts(4, 0, 8), [0, 4]);
        assert_eq!(starts(4, 0, 9), [0, 4, 5]);
        assert_eq!(starts(4, 3, 6), [0, 1, 2]);
        assert_eq!(starts(1, 0, 3), [0, 1, 2]);
    }

    /// By the definition: some window has all of the stretch.
    #[test]
    fn a_stretch_of_the_overlap_and_one_is_whole_in_a_window() {
        for (count, overlap) in [(63, 31), (62, 31), (5, 2), (4, 0), (4, 3), (1, 0)] {
            for samples in 1..200 {
                let starts = starts(count, overlap, samples);
                let whole = |first: usize, end: usize| {
                    let has = |start: &usize| *start <= first && end <= start + count;
                    starts.iter().any(has)
                };
                for first in 0..samples {
                    assert!(whole(first, samples.min(first + overlap + 1)));
                }
            }
        }
    }

    #[test]
    fn the_longest_run_has_the_most_windows() {
        for (count, overlap) in [(63, 31), (63, 0), (1, 0)] {
            let windows = Windows { count, overlap };
            assert_eq!(windows.starts(windows.most()).len(), MOST);
            assert_eq!(windows.starts(windows.most() + 1).len(), MOST + 1);
        }
    }
}
