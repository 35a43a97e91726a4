//! The engines that are measured, all behind one call.

/// The words of the largest workspace that a table can need.
pub const WORDS: usize = 65 * 120;

#[derive(Clone, Copy, Debug, PartialEq, Eq)]
pub enum Engine {
    /// The proved judge, through the static library.
    Library,
    /// The proved plain judge, through the static library: level and tested alone, with no workspace.
    Plain,
    /// The same row rules in safe Rust, without proof.
    Rows,
    /// The naive program, with the rows.
    Second,
    /// The naive program without the rows: level and tested alone.
    Level,
}

/// What every engine answers: the refusal's number and node, the level, and whether the table was tested.
#[derive(Debug, PartialEq, Eq)]
pub struct Answer {
    pub number: u8,
    pub node: usize,
    pub level: u8,
    pub tested: bool,
}

/// Each type of judgement has the same fields.
macro_rules! answer {
    ($judgement:expr) => {{
        let judgement = $judgement;
        Answer {
            number: judgement.verdict.number,
            node: judgement.verdict.node,
            level: judgement.level,
            tested: judgement.tested,
        }
    }};
}

impl Engine {
    pub const ALL: [Engine; 5] = [
        Engine::Library,
        Engine::Plain,
        Engine::Rows,
        Engine::Second,
        Engine::Level,
    ];

    pub fn name(self) -> &'static str {
        match self {
            Engine::Library => "library",
            Engine::Plain => "plain",
            Engine::Rows => "rows",
            Engine::Second => "second",
            Engine::Level => "level",
        }
    }

    pub fn named(name: &str) -> Option<Engine> {
        Engine::ALL.into_iter().find(|engine| engine.name() == name)
    }

    /// Whether a call takes thousands of times as long as one of the library.
    pub fn is_slow(self) -> bool {
        matches!(self, Engine::Second | Engine::Level)
    }

    pub fn leaves_rows(self) -> bool {
        !matches!(self, Engine::Level | Engine::Plain)
    }

    pub fn judge(self, table: &[u8], samples: &[u64], workspace: &mut [u64]) -> Answer {
        match self {
            Engine::Library => answer!(xistomar::raw::judge(table, samples, workspace)),
            Engine::Plain => answer!(xistomar::raw::plain_judge(table, samples)),
            Engine::Rows => answer!(rows::judge(table, samples, workspace)),
            Engine::Second => answer!(second::judge(table, samples, workspace)),
            Engine::Level => answer!(second::level(table, samples)),
        }
    }
}

/// What the naive program answers for the plain judge, which refuses nothing with 13.
pub fn naive_plain(table: &[u8], samples: &[u64]) -> Answer {
    answer!(second::plain_judge(table, samples))
}

/// A workspace for one engine. Nothing clears it between calls: the judge writes all its words itself.
pub fn workspace() -> Vec<u64> {
    vec![0; WORDS]
}
