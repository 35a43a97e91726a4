//! The two proved engines, and that they agree.
//!
//! The fast engine rewrites a table's clocks away and leaves rows, off which the kit reads why a level is so. A table
//! whose rewriting has more than 120 nodes it refuses with 13. The plain engine reads the clocked table as it is, and
//! answers the level and the flag alone. Where the fast one accepts both say the same, which is proved; the kit asks
//! both all the same, and tells a difference as a defect.
mod difference;
#[cfg(test)]
mod tests;

pub use difference::Difference;

use crate::failure::Failure;
use crate::options::Options;
use xistomar::{Judge, Judgement, Refusal};

/// The refusal that the fast engine alone gives where the rewritten count is over 120. Where the expanded count is, the
/// plain one gives it too.
const PAST: u8 = 13;

/// Which engines judge.
#[derive(Clone, Copy, Debug, PartialEq, Eq)]
pub enum Engine {
    /// The fast one, and the plain one beside it.
    Both,
    /// The fast one alone.
    Fast,
    /// The plain one alone.
    Plain,
}

impl Engine {
    /// What `--engine` asks for. `--asked` is read off the rows, so it cannot be had of the plain engine alone.
    pub fn of(options: &Options) -> Result<Engine, Failure> {
        match options.text("--engine")? {
            None | Some("both") => Ok(Engine::Both),
            Some("fast") => Ok(Engine::Fast),
            Some("plain") if options.flag("--asked") => {
                let words =
                    "--asked needs the rows of the fast engine, and --engine plain leaves them out";
                Err(Failure::Usage(words.to_string()))
            }
            Some("plain") => Ok(Engine::Plain),
            Some(other) => {
                let words = format!("--engine is both, fast or plain, not '{other}'");
                Err(Failure::Usage(words))
            }
        }
    }

    /// `both`, `fast` or `plain`.
    pub fn name(self) -> &'static str {
        match self {
            Engine::Both => "both",
            Engine::Fast => "fast",
            Engine::Plain => "plain",
        }
    }
}

/// What an engine answers.
pub type Answer = Result<Judgement, Refusal>;

/// Why there is no judgement.
#[derive(Clone, Copy, Debug, PartialEq, Eq)]
pub enum Unjudged {
    /// The table is refused or, above 63 samples, the record.
    Refused(Refusal),
    /// The engines differ.
    Differ(Difference),
}

impl From<Refusal> for Unjudged {
    fn from(refusal: Refusal) -> Unjudged {
        Unjudged::Refused(refusal)
    }
}

/// The engines that judge by one table.
#[derive(Clone, Debug)]
pub struct Engines {
    engine: Engine,
    past: Option<Refusal>,
    judge: Judge,
}

impl Engines {
    /// The engines for a table that is asked on no samples, or why it is not judged. Where both are asked for and the
    /// fast one alone refuses, with 13, the plain one judges alone.
    pub fn of(engine: Engine, table: &[u8]) -> Result<Engines, Unjudged> {
        let mut engines = Engines {
            engine,
            past: None,
            judge: Judge::new(),
        };
        match engines.judge(table, &[]) {
            Ok(_) => Ok(engines),
            Err(Unjudged::Refused(refusal))
                if engine == Engine::Both && refusal.number() == PAST =>
            {
                engines.engine = Engine::Plain;
                engines.past = Some(refusal);
                engines.judge(table, &[])?;
                Ok(engines)
            }
            Err(unjudged) => Err(unjudged),
        }
    }

    /// The engines that judge now.
    pub fn engine(&self) -> Engine {
        self.engine
    }

    /// The fast engine's refusal, where it would judge too but for that.
    pub fn past(&self) -> Option<Refusal> {
        self.past
    }

    /// Judges the samples by the table.
    pub fn judge(&mut self, table: &[u8], samples: &[u64]) -> Result<Judgement, Unjudged> {
        match self.engine {
            Engine::Fast => Ok(self.judge.judge(table, samples)?),
            Engine::Plain => Ok(xistomar::plain_judge(table, samples)?),
            Engine::Both => {
                let fast = self.judge.judge(table, samples);
                agreed(fast, xistomar::plain_judge(table, samples), samples.len())
            }
        }
    }

    /// The rows that the fast engine left of the last record; none where the plain one judges alone.
    pub fn rows(&self) -> Option<&[u64]> {
        (self.engine != Engine::Plain).then(|| self.judge.workspace())
    }
}

/// That the plain engine judged alone, and why, where the fast one would have but for its refusal.
pub fn alone(past: Option<Refusal>) -> String {
    let why = |refusal: Refusal| {
        let (number, reason) = (refusal.number(), refusal.reason());
        format!(": the fast one refuses the table with {number}, {reason}")
    };
    let why = past.map(why).unwrap_or_default();
    format!("Judged by the plain engine alone{why}.\n")
}

/// The fast engine's answer on so many samples, where the plain one's goes with it: it is the same, or a judgement where
/// the fast one refuses with 13.
fn agreed(fast: Answer, plain: Answer, samples: usize) -> Result<Judgement, Unjudged> {
    let past = matches!(fast, Err(refusal) if refusal.number() == PAST);
    match fast == plain || past && plain.is_ok() {
        true => Ok(fast?),
        false => Err(Unjudged::Differ(Difference {
            fast,
            plain,
            samples,
        })),
    }
}
