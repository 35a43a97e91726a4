//! Which of a waveform's samples the command line asks for, and what goes together.
use crate::failure::Failure;
use crate::options::Options;
use crate::vcd::Windows;
use std::ops::RangeInclusive;
use xistomar::LONGEST;

/// What is asked for.
#[derive(Clone, Copy, Debug)]
pub enum Chosen {
    /// The first so many, or all.
    First(Option<usize>),
    /// The last so many.
    Last(usize),
    /// So many around the time of `--around`.
    Around(usize),
    /// All, in windows.
    Windows(Windows),
}

/// Pairs of options that ask for different things, and why.
const APART: [(&str, &str, &str); 4] = [
    ("--last", "--count", "both say how many samples are taken"),
    (
        "--last",
        "--around",
        "one takes the last samples, the other those around a time",
    ),
    (
        "--windows",
        "--last",
        "one takes all samples, the other the last",
    ),
    (
        "--windows",
        "--around",
        "one takes all samples, the other those around a time",
    ),
];

impl Chosen {
    /// Reads the options.
    pub fn of(options: &Options) -> Result<Chosen, Failure> {
        let given = |name: &str| options.value(name).is_some() || options.flag(name);
        let apart = |(one, other, _): &&(&str, &str, &str)| given(one) && given(other);
        if let Some((one, other, why)) = APART.iter().find(apart) {
            let words =
                format!("{one} and {other} do not go together, for {why}: give one of them");
            return Err(Failure::Usage(words));
        }
        let (around, windows) = (given("--around"), options.flag("--windows"));
        if given("--overlap") && !windows {
            let words = "--overlap goes with --windows: it is what a window has of the one before";
            return Err(Failure::Usage(words.to_string()));
        }
        let least = usize::from(around || windows);
        let count = number(options, "--count", least..=LONGEST)?;
        let all = count.unwrap_or(LONGEST);
        if around {
            return Ok(Chosen::Around(all));
        }
        if windows {
            let overlap = number(options, "--overlap", 0..=all.saturating_sub(1))?;
            let (count, overlap) = (all, overlap.unwrap_or(all / 2));
            return Ok(Chosen::Windows(Windows { count, overlap }));
        }
        let last = number(options, "--last", 1..=LONGEST)?;
        Ok(last.map_or(Chosen::First(count), Chosen::Last))
    }
}

/// The number that an option gives.
fn number(
    options: &Options,
    name: &str,
    fits: RangeInclusive<usize>,
) -> Result<Option<usize>, Failure> {
    let Some(text) = options.text(name)? else {
        return Ok(None);
    };
    let number = text.parse().ok().filter(|number| fits.contains(number));
    let (least, most) = (fits.start(), fits.end());
    match number {
        Some(number) => Ok(Some(number)),
        None => Err(Failure::Usage(format!(
            "{name} is a number, {least} to {most}, not '{text}'"
        ))),
    }
}
