//! Times: the units of a waveform, times given by a person, and times shown. All are counted in
//! femtoseconds, or in the waveform's own ticks where it declares no timescale.

/// The units, the largest first, with their femtoseconds.
const UNITS: [(&str, u128); 6] = [
    ("s", 1_000_000_000_000_000),
    ("ms", 1_000_000_000_000),
    ("us", 1_000_000_000),
    ("ns", 1_000_000),
    ("ps", 1_000),
    ("fs", 1),
];

/// The units of time in one tick, at most: so that no tick's time is over what 128 bits hold.
const MOST_UNITS: u128 = 1000;

/// What a tick of a waveform is.
#[derive(Clone, Copy, Debug, Default, PartialEq, Eq)]
pub struct Scale {
    /// The femtoseconds of a tick, where the waveform says them.
    tick: Option<u128>,
}

impl Scale {
    /// Reads what stands in `$timescale`, with its spaces gone: `1ns`, `10us`, `100fs`.
    pub fn of_header(text: &str) -> Result<Scale, String> {
        let expected = || {
            format!("a timescale is 1, 10 or 100 and one of s, ms, us, ns, ps and fs, and here stands '{text}'")
        };
        let (number, unit) = parts(text);
        let unit = femtoseconds(unit).ok_or_else(expected)?;
        let number: u128 = number.parse().map_err(|_| expected())?;
        let tick = Some(number)
            .filter(|number| (1..=MOST_UNITS).contains(number))
            .and_then(|number| number.checked_mul(unit));
        tick.ok_or_else(expected)
            .map(|tick| Scale { tick: Some(tick) })
    }

    /// The time of a tick's number.
    pub fn time(self, ticks: u64) -> u128 {
        u128::from(ticks).saturating_mul(self.tick.unwrap_or(1))
    }

    /// Reads a time that a person gave: `120ns`, `1.5us`, or a plain number of ticks.
    pub fn read(self, text: &str) -> Result<u128, String> {
        let (number, unit) = parts(text);
        let expected = || format!("a time such as 120ns, 1.5us or 40 is expected, not '{text}'");
        let (whole, part) = number.split_once('.').unwrap_or((number, ""));
        let digits = |text: &str| text.bytes().all(|byte| byte.is_ascii_digit());
        let fits = !whole.is_empty() && digits(whole) && digits(part);
        if !fits || number.ends_with('.') {
            return Err(expected());
        }
        let size = match (unit, self.tick) {
            ("", _) if !part.is_empty() => {
                return Err(format!(
                    "'{text}' has no unit, and ticks are whole: give a unit, as in {text}ns"
                ))
            }
            ("", tick) => tick.unwrap_or(1),
            (unit, tick) => {
                let size = femtoseconds(unit).ok_or_else(expected)?;
                tick.map(|_| size).ok_or_else(|| {
                    format!("there is no $timescale, so it is not known when {text} is: give a plain number of ticks")
                })?
            }
        };
        exact(whole, part, size).ok_or_else(|| {
            format!("{text} is too long or too fine a time: it must be whole femtoseconds")
        })
    }

    /// A time for a reader, in the largest unit that it has one of.
    pub fn show(self, time: u128) -> String {
        match self.tick {
            None if time == 1 => "1 tick".to_string(),
            None => format!("{time} ticks"),
            Some(tick) => {
                let measure = if time == 0 { tick } else { time };
                in_units(time, measure)
            }
        }
    }

    /// The largest unit of which all these times are whole numbers, and its size. Where they are all 0
    /// it is a tick's.
    pub fn unit_of(self, times: &[u128]) -> (&'static str, u128) {
        let Some(tick) = self.tick else {
            return ("ticks", 1);
        };
        let measures = match times.iter().all(|time| *time == 0) {
            true => &[tick],
            false => times,
        };
        let whole = |size: u128| measures.iter().all(|time| time % size == 0);
        let unit = UNITS.iter().find(|(_, size)| whole(*size));
        unit.copied().unwrap_or(("fs", 1))
    }

    /// What a tick is, for a reader.
    pub fn describe(self) -> String {
        match self.tick {
            None => "times are in ticks: no $timescale says how long one is".to_string(),
            Some(tick) => format!("times are in units of {}", in_units(tick, tick)),
        }
    }
}

/// A time in the largest unit that the measure has one of.
fn in_units(time: u128, measure: u128) -> String {
    let fits = UNITS.iter().find(|(_, size)| *size <= measure);
    let (unit, size) = fits.copied().unwrap_or(("fs", 1));
    let (whole, rest) = (time / size, time % size);
    let places = size.ilog10() as usize;
    let part = format!("{rest:0places$}");
    match part.trim_end_matches('0') {
        "" => format!("{whole} {unit}"),
        part => format!("{whole}.{part} {unit}"),
    }
}

/// Parts a time into its number and its unit.
fn parts(text: &str) -> (&str, &str) {
    let text = text.trim();
    let number = |c: char| c.is_ascii_digit() || c == '.';
    let unit = text.trim_start_matches(number);
    let number = text.strip_suffix(unit).unwrap_or_default();
    (number.trim(), unit.trim())
}

fn femtoseconds(unit: &str) -> Option<u128> {
    let found = UNITS.iter().find(|(known, _)| *known == unit)?;
    Some(found.1)
}

/// The femtoseconds of `whole.part` units, where they are a whole number that can be counted.
fn exact(whole: &str, part: &str, size: u128) -> Option<u128> {
    let whole = whole.parse::<u128>().ok()?.checked_mul(size)?;
    let part = part.trim_end_matches('0');
    if part.is_empty() {
        return Some(whole);
    }
    let parts = 10u128.checked_pow(u32::try_from(part.len()).ok()?)?;
    let fits = size.checked_rem(parts)? == 0;
    let part = part.parse::<u128>().ok()?.checked_mul(size / parts)?;
    whole.checked_add(part).filter(|_| fits)
}

#[cfg(test)]
mod tests {
    use super::*;

    fn scale(text: &str) -> Scale {
        Scale::of_header(text).unwrap()
    }

    #[test]
    fn every_timescale_is_read() {
        let mut tick = 1;
        for unit in ["fs", "ps", "ns", "us", "ms", "s"] {
            for number in ["1", "10", "100"] {
                let scale = scale(&format!("{number}{unit}"));
                assert_eq!((scale.time(1), scale.time(7)), (tick, 7 * tick));
                assert_eq!(
                    scale.describe(),
                    format!("times are in units of {number} {unit}")
                );
                tick *= 10;
            }
        }
        // 2^64 - 1 times of 100 s is about 1.8 * 10^36 fs, which 128 bits hold
        assert_eq!(
            scale("100s").time(u64::MAX),
            u128::from(u64::MAX) * 10u128.pow(17)
        );
        for text in [
            "", "1", "ns", "0ns", "1 m", "1.5ns", "-1ns", "1001ns", "1nsns",
        ] {
            let words = Scale::of_header(text).unwrap_err();
            assert!(
                words.contains("timescale is 1, 10 or 100"),
                "{text}: {words}"
            );
        }
    }

    #[test]
    fn a_time_is_read_exactly() {
        let nano = scale("1ns");
        let read = |text: &str| nano.read(text).unwrap();
        assert_eq!(read("120ns"), 120_000_000);
        assert_eq!(read(" 120 ns "), 120_000_000);
        assert_eq!(read("1.5us"), 1_500_000_000);
        assert_eq!(read("0.000000000000001s"), 1);
        assert_eq!(read("1.50000000000000000000s"), 1_500_000_000_000_000);
        assert_eq!(read("40"), 40_000_000);
        assert_eq!(read("0"), 0);
        assert_eq!(scale("10ps").read("3").unwrap(), 30_000);
    }

    #[test]
    fn a_time_that_is_none_is_told() {
        let nano = scale("1ns");
        let told = |text: &str| nano.read(text).unwrap_err();
        for text in [
            "",
            "ns",
            "-1ns",
            "1..5ns",
            "1.ns",
            ".5ns",
            "1e3ns",
            "12 parsecs",
            "1,5ns",
        ] {
            assert!(told(text).contains("a time such as"), "{text}");
        }
        assert!(told("1.5").contains("ticks are whole"));
        for text in [
            "0.5fs",
            "0.0000000000000001s",
            "99999999999999999999999999999999999999s",
        ] {
            assert!(told(text).contains("femtoseconds"), "{text}");
        }
        let ticks = Scale::default();
        assert!(ticks.read("10ns").unwrap_err().contains("no $timescale"));
        assert_eq!(ticks.read("10").unwrap(), 10);
    }

    #[test]
    fn times_have_a_unit_in_which_all_are_whole() {
        let nano = scale("100ps");
        let (ns, us) = (1_000_000, 1_000_000_000);
        assert_eq!(nano.unit_of(&[15 * ns, 2 * us]), ("ns", ns));
        assert_eq!(nano.unit_of(&[0, 3 * us]), ("us", us));
        assert_eq!(nano.unit_of(&[2_500_000, 2 * us]), ("ps", 1_000));
        assert_eq!(nano.unit_of(&[1, us]), ("fs", 1));
        // a tick is 100 ps
        assert_eq!(nano.unit_of(&[0]), ("ps", 1_000));
        assert_eq!(Scale::default().unit_of(&[5]), ("ticks", 1));
    }

    #[test]
    fn a_time_is_shown_in_a_fitting_unit() {
        let nano = scale("1ns");
        assert_eq!(nano.show(1_500_000_000), "1.5 us");
        assert_eq!(nano.show(230_000_000), "230 ns");
        assert_eq!(nano.show(0), "0 ns");
        assert_eq!(nano.show(1), "1 fs");
        assert_eq!(nano.show(1_234_567_000_000), "1.234567 ms");
        assert_eq!(nano.show(61_000_000_000_000_000), "61 s");
        let ticks = Scale::default();
        assert_eq!(
            (ticks.show(1), ticks.show(40)),
            ("1 tick".to_string(), "40 ticks".to_string())
        );
        assert!(ticks.describe().contains("in ticks"));
    }
}
