//! A run: so many cases from a seed, on two threads.
use crate::{Difference, Summary};
use second::{random_case, Answer, Case};
use std::num::ParseIntError;
use std::ops::ControlFlow;
use std::sync::atomic::{AtomicBool, AtomicU64, Ordering};
use std::time::{SystemTime, UNIX_EPOCH};
use std::{env, fmt, process, thread};

/// Something that answers cases.
pub type Side = fn(&Case) -> Answer;

const SEED: &str = "XISTOMAR_SEED";
const CASES: &str = "XISTOMAR_CASES";

/// The cases compared where `XISTOMAR_CASES` says nothing else.
pub(crate) const USUAL: u64 = 100_000;

const THREADS: usize = 2;

/// Which cases to compare: case i is the one of seed + i.
#[derive(Clone, Copy, Debug, PartialEq, Eq)]
pub struct Run {
    /// The seed of the first case.
    pub seed: u64,
    /// How many cases there are.
    pub cases: u64,
}

/// How to have the run again, from the project's folder.
impl fmt::Display for Run {
    fn fmt(&self, f: &mut fmt::Formatter<'_>) -> fmt::Result {
        let Run { seed, cases } = self;
        write!(
            f,
            "{SEED}={seed} {CASES}={cases} cargo test --release --offline \
             --manifest-path rust/Cargo.toml -p agree --test fresh"
        )
    }
}

impl Run {
    /// The run that the environment asks for: else a fresh seed, and the usual number of cases.
    pub fn from_environment() -> Result<Run, String> {
        let seed = number_of(SEED)?.unwrap_or_else(fresh_seed);
        match number_of(CASES)?.unwrap_or(USUAL) {
            0 => Err(format!("{CASES} is 0: that compares nothing")),
            cases => Ok(Run { seed, cases }),
        }
    }

    /// Compares the two sides on each case: what the cases were, or a difference, shrunk.
    pub fn compare(&self, library: Side, second: Side) -> Result<Summary, Box<Difference>> {
        let next = AtomicU64::new(0);
        let found = AtomicBool::new(false);
        let work = || self.work(library, second, &next, &found);
        let ended: Vec<_> = thread::scope(|scope| {
            let threads = [(); THREADS].map(|()| scope.spawn(work));
            threads.map(|thread| thread.join()).into()
        });
        let mut summary = Summary::default();
        for end in ended {
            match end.expect("a side panicked; its case is named above") {
                ControlFlow::Continue(part) => summary.add(&part),
                ControlFlow::Break(seed) => {
                    return Err(Difference::shrunk(seed, library, second).into());
                }
            }
        }
        Ok(summary)
    }

    /// Takes cases until there are no more, or until either thread finds one that differs: then
    /// breaks off with its seed.
    fn work(
        &self,
        library: Side,
        second: Side,
        next: &AtomicU64,
        found: &AtomicBool,
    ) -> ControlFlow<u64, Summary> {
        let mut summary = Summary::default();
        while !found.load(Ordering::Relaxed) {
            let index = next.fetch_add(1, Ordering::Relaxed);
            if index >= self.cases {
                break;
            }
            let seed = self.seed.wrapping_add(index);
            let _named = NamedOnPanic(seed);
            let case = random_case(seed);
            let answer = library(&case);
            if answer != second(&case) {
                found.store(true, Ordering::Relaxed);
                return ControlFlow::Break(seed);
            }
            summary.count(&case, &answer);
        }
        ControlFlow::Continue(summary)
    }
}

/// Tells how to have the case of this seed again, if its thread panics.
struct NamedOnPanic(u64);

impl Drop for NamedOnPanic {
    fn drop(&mut self) {
        if thread::panicking() {
            let (seed, cases) = (self.0, 1);
            eprintln!("the case that panicked: {}", Run { seed, cases });
        }
    }
}

/// The number in an environment variable, if it is set.
fn number_of(name: &str) -> Result<Option<u64>, String> {
    let Some(text) = env::var_os(name) else {
        return Ok(None);
    };
    let text = text.to_string_lossy();
    let wrong = |error: ParseIntError| format!("{name} is {text:?}: {error}");
    text.parse().map(Some).map_err(wrong)
}

/// A seed from the clock and the process id, with its bits well mixed: the cases of two runs are
/// not the same.
fn fresh_seed() -> u64 {
    let now = SystemTime::now().duration_since(UNIX_EPOCH);
    let nanoseconds = now.map_or(0, |since| since.as_nanos() as u64);
    let seed = nanoseconds ^ u64::from(process::id()) << 32;
    let mixed = (seed ^ seed >> 31).wrapping_mul(0x9E37_79B9_7F4A_7C15);
    mixed ^ mixed >> 29
}
