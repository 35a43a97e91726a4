//! Times of an engine on a case.
use crate::cases::Case;
use crate::engines::{workspace, Engine};
use std::hint::black_box;
use std::time::{Duration, Instant};

/// How many rounds there are, and how long each engine runs in a round, at least. A turn is short beside the slice of time that a machine
/// gives to another program, so that most rounds are free of it.
#[derive(Clone, Copy)]
pub struct Effort {
    pub rounds: usize,
    pub turn: Duration,
}

/// A slow engine has a turn in one of so many rounds, since its turns are long.
const SELDOM: usize = 20;

impl Effort {
    /// In how many rounds a slow engine has a turn.
    pub fn slow_rounds(self) -> usize {
        self.rounds.div_ceil(SELDOM)
    }
}

pub const FULL: Effort = Effort {
    rounds: 161,
    turn: Duration::from_micros(300),
};

pub const QUICK: Effort = Effort {
    rounds: 21,
    turn: Duration::from_micros(200),
};

/// Makes so many calls, one input of the case after the other.
pub fn call(engine: Engine, case: &Case, calls: usize, words: &mut [u64]) {
    for input in case.inputs.iter().cycle().take(calls) {
        let table = black_box(&input.table[..]);
        let samples = black_box(&input.samples[..]);
        black_box(engine.judge(table, samples, black_box(words)));
    }
}

/// What takes turns with others: so many calls at a time, at least `least` of them, and where it is slow in few rounds only.
pub struct Turns<'a> {
    pub call: Box<dyn FnMut(usize) + 'a>,
    pub least: usize,
    pub is_slow: bool,
}

impl Turns<'_> {
    /// How many calls fill a turn: whole rounds over the inputs. Finding it out warms the engine up.
    fn calls_a_turn(&mut self, turn: Duration) -> usize {
        let mut calls = self.least;
        loop {
            let start = Instant::now();
            (self.call)(calls);
            if start.elapsed() >= turn {
                return calls;
            }
            calls *= 2;
        }
    }
}

/// The nanoseconds of one call of each: the median over the rounds. All take turns in every round, so that what slows the machine down for a
/// while slows all of them; a slow one only now and then.
pub fn medians<const N: usize>(turns: [Turns; N], effort: Effort) -> [f64; N] {
    let mut turns = turns.map(|mut turns| {
        let calls = turns.calls_a_turn(effort.turn);
        (turns, calls, Vec::new())
    });
    for round in 0..effort.rounds {
        for (turns, calls, taken) in &mut turns {
            if turns.is_slow && round % SELDOM != 0 {
                continue;
            }
            let start = Instant::now();
            (turns.call)(*calls);
            taken.push(start.elapsed().as_nanos() as f64 / *calls as f64);
        }
    }
    turns.map(|(_, _, taken)| median(taken))
}

/// The times of engines on a case, each with a workspace of its own.
pub fn times<const N: usize>(engines: [Engine; N], case: &Case, effort: Effort) -> [f64; N] {
    let turns = engines.map(|engine| {
        let mut words = workspace();
        Turns {
            call: Box::new(move |calls| call(engine, case, calls, &mut words)),
            least: case.inputs.len(),
            is_slow: engine.is_slow(),
        }
    });
    medians(turns, effort)
}

fn median(mut taken: Vec<f64>) -> f64 {
    taken.sort_by(f64::total_cmp);
    taken[taken.len() / 2]
}
