//! Random records: which signals they have, how long they are, what happens in them.

use crate::random::Random;

/// A few signals, so that things match.
pub fn signals(random: &mut Random) -> Vec<usize> {
    match random.below(9) {
        0 => vec![0],
        1 | 2 => vec![0, 1],
        3 | 4 => vec![0, 1, 2],
        5 | 6 => vec![0, 63],
        7 => vec![0, 1, 2, 3, 4],
        _ => (0..3).map(|_| random.below(64)).collect(),
    }
}

/// How many samples a good record has: mostly few.
fn record_length(random: &mut Random) -> usize {
    match random.weighted(&[9, 46, 31, 8, 6]) {
        0 => 0,
        1 => random.between(1, 3),
        2 => random.between(3, 14),
        3 => random.between(15, 62),
        _ => random.between(60, 63),
    }
}

/// Samples over a few signals, at times with runs, noise or a quiet beginning.
fn samples(random: &mut Random, n: usize, signals: &[usize]) -> Vec<u64> {
    let course = course(random);
    let repeats = random.pick(&[0, 0, 30, 70]);
    let noisy = random.percent(10);
    // So many samples at first have none of the signals.
    let quiet = random.pick(&[0, 0, 0, 1, 2, 3]);
    let mut samples: Vec<u64> = Vec::new();
    for index in 0..n {
        let before = samples.last().copied();
        let mut sample = if noisy { random.next() } else { 0 };
        for &signal in signals {
            let was_set = before.unwrap_or(0) >> signal & 1 == 1;
            let set = u64::from(set_next(random, &course, was_set) && index >= quiet);
            sample = sample & !(1 << signal) | set << signal;
        }
        match before {
            Some(before) if random.percent(repeats) => samples.push(before),
            _ => samples.push(sample),
        }
    }
    samples
}

/// What the signals of a record do from sample to sample, in parts of a hundred.
enum Course {
    /// Each is set so often, whatever it was.
    Set(usize),
    /// Each changes so often: seldom, and it stays high or low over neighbouring
    /// samples, or mostly, and it rises and falls by turns.
    Changes(usize),
}

/// Thin or mostly dense, steady or restless.
fn course(random: &mut Random) -> Course {
    if random.percent(60) {
        Course::Set(random.pick(&[10, 30, 50, 70, 90, 95, 100]))
    } else {
        Course::Changes(random.pick(&[20, 35, 60, 85]))
    }
}

/// Whether a signal is set in the next sample.
fn set_next(random: &mut Random, course: &Course, was_set: bool) -> bool {
    match *course {
        Course::Set(share) => random.percent(share),
        Course::Changes(share) => was_set != random.percent(share),
    }
}

/// A good record for a table.
pub fn good_samples(random: &mut Random, signals: &[usize]) -> Vec<u64> {
    let n = record_length(random);
    samples(random, n, signals)
}

/// A record with too many samples.
pub fn too_many_samples(random: &mut Random, signals: &[usize]) -> Vec<u64> {
    let n = random.pick(&[64, 64, 65, 70, 100]);
    samples(random, n, signals)
}
