//! What `--require`, `--tested` and `--asked` ask of a record.
use crate::failure::Failure;
use crate::options::Options;
use crate::verdict::Judged;
use crate::words;
use xistomar::Level;

/// What the caller requires of a record.
#[derive(Clone, Copy, Debug, Default, PartialEq, Eq)]
pub struct Required {
    /// The lowest level that is good enough.
    pub level: Option<u8>,
    /// Whether the record must test the assertion.
    pub tested: bool,
    /// Whether the record must ask every `|->`.
    pub asked: bool,
    /// Whether the assertion and the record must be known to mean the same signals.
    pub named: bool,
}

impl Required {
    /// What a command line asks for.
    pub fn of(options: &Options) -> Result<Required, Failure> {
        let level = match options.text("--require")? {
            None => None,
            Some("0") => Some(0),
            Some("1") => Some(1),
            Some("2") => Some(2),
            Some("3") => Some(3),
            Some(other) => {
                let words = format!("--require is a level, 0 to 3, not '{other}'");
                return Err(Failure::Usage(words));
            }
        };
        Ok(Required {
            level,
            tested: options.flag("--tested"),
            asked: options.flag("--asked"),
            named: options.flag("--named"),
        })
    }

    /// Whether anything is asked.
    pub fn asks(self) -> bool {
        self != Required::default()
    }

    /// Each thing that is required, in short, and whether a record reaches it.
    pub fn each(self, record: Judged) -> Vec<(String, bool)> {
        let level = self.level.map(|level| level.to_string());
        let level = level.map(|level| (level, self.level_reached(record)));
        let tested = ("tested".to_string(), record.judgement.tested);
        let asked = ("asked".to_string(), record.asked == Some(true));
        let named = ("named".to_string(), record.named);
        let (tested, asked) = (self.tested.then_some(tested), self.asked.then_some(asked));
        let named = self.named.then_some(named);
        let each = [level, tested, asked, named];
        each.into_iter().flatten().collect()
    }

    /// Whether all that is required is reached.
    pub fn reached(self, record: Judged) -> bool {
        self.level_reached(record)
            && (record.judgement.tested || !self.tested)
            && (record.asked == Some(true) || !self.asked)
            && (record.named || !self.named)
    }

    /// Whether a record is broken and the status does not say it, since no level is required.
    pub fn unsaid(self, record: Judged) -> bool {
        let broken = record.judgement.level == Level::Broken;
        broken && self.level.is_none() && self.reached(record)
    }

    fn level_reached(self, record: Judged) -> bool {
        let reached = |level| record.judgement.level.number() >= level;
        self.level.is_none_or(reached)
    }

    /// All that is required, in words.
    pub fn words(self) -> String {
        let level = self.level.map(|level| format!("level {level} or more"));
        let tested = self.tested.then(|| "tested".to_string());
        let asked = self.asked.then(|| "every |-> asked".to_string());
        let named = self.named.then(|| "names agreed".to_string());
        let all = [level, tested, asked, named];
        let all: Vec<String> = all.into_iter().flatten().collect();
        words::list(&all)
    }
}
