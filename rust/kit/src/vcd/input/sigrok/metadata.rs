//! What a session says of itself: lines `key=value` under a section for the device.
use crate::words;

/// The number of a channel, at most.
const CHANNELS: usize = 1 << 16;
/// The bytes of a sample, at most: one for 8 channels.
const LONGEST: usize = CHANNELS / 8;

/// What a session says of itself.
#[derive(Debug, Default, PartialEq, Eq)]
pub struct Metadata {
    /// The samples of a second, where it says them.
    pub rate: Option<u64>,
    /// The bytes of a sample.
    pub unit: usize,
    /// The name of the entries with the samples.
    pub capture: Option<String>,
    /// The channels that are 0 or 1, by their number from 1 on: the first is the lowest bit.
    pub logic: Vec<(usize, String)>,
    /// The channels that are numbers.
    pub analog: Vec<(usize, String)>,
}

impl Metadata {
    /// Reads the text. The error says why it cannot be.
    pub fn of(text: &str) -> Result<Metadata, String> {
        let mut metadata = Metadata::default();
        let mut section = "";
        for line in text.lines().map(str::trim) {
            match line.strip_prefix('[') {
                Some(name) => section = name.trim_end_matches(']'),
                None if section == "device 1" => metadata.line(line)?,
                None => {}
            }
            if section.starts_with("device ") && section != "device 1" {
                return Err("it has more than one device".to_string());
            }
        }
        metadata.logic.sort();
        metadata.analog.sort();
        metadata.check()
    }

    /// Takes a line of the device; what is not known of it does not matter here.
    fn line(&mut self, line: &str) -> Result<(), String> {
        let Some((key, value)) = line.split_once('=') else {
            return Ok(());
        };
        let (key, value) = (key.trim(), unescaped(value.trim()));
        let wrong = || {
            let line = words::shortened(&format!("{key}={value}"));
            format!("{line} in its metadata is not understood")
        };
        match key {
            "samplerate" => self.rate = Some(rate(&value).ok_or_else(wrong)?),
            "unitsize" => self.unit = value.parse().map_err(|_| wrong())?,
            "capturefile" => self.capture = Some(value),
            _ => {
                if let Some(number) = channel(key, "probe") {
                    self.logic.push((number.ok_or_else(wrong)?, value));
                } else if let Some(number) = channel(key, "analog") {
                    self.analog.push((number.ok_or_else(wrong)?, value));
                }
            }
        }
        Ok(())
    }

    /// Asks that a sample has a bit for each channel, and each channel a name that can be written.
    fn check(self) -> Result<Metadata, String> {
        let unit = self.unit;
        if unit > LONGEST {
            return Err(format!("unitsize={unit} in its metadata is over {LONGEST}"));
        }
        if let Some((last, name)) = self.logic.last() {
            if *last > unit.saturating_mul(8) || self.capture.is_none() {
                let name = words::shortened(name);
                return Err(format!(
                    "its metadata does not fit: channel {last}, {name}, and unitsize={unit}"
                ));
            }
        }
        let twice = |all: &[(usize, String)]| {
            let next = all.iter().skip(1);
            all.iter().zip(next).any(|(one, other)| one.0 == other.0)
        };
        if twice(&self.logic) || twice(&self.analog) {
            return Err("a channel stands twice in its metadata".to_string());
        }
        let mut names = self.logic.iter().chain(&self.analog);
        let ends = |name: &str| name.split_whitespace().any(|word| word == "$end");
        match names.find(|(_, name)| ends(name)) {
            Some((number, _)) => Err(format!("channel {number} has $end in its name")),
            None => Ok(self),
        }
    }
}

/// The number of the channel that a key such as `probe3` is of: none where it is another key, and
/// nothing inside where it is no number from 1 on.
fn channel(key: &str, kind: &str) -> Option<Option<usize>> {
    let number = key.strip_prefix(kind)?.parse().ok();
    Some(number.filter(|number| (1..=CHANNELS).contains(number)))
}

/// A sample rate such as `2 MHz`, `12.5 kHz` or `2000000`, where it is a whole number of samples a
/// second and not 0.
fn rate(text: &str) -> Option<u64> {
    let text = text.strip_suffix("Hz").unwrap_or(text).trim_end();
    let units = [
        ("k", 3usize),
        ("K", 3),
        ("M", 6),
        ("m", 6),
        ("G", 9),
        ("g", 9),
    ];
    let found = units.iter().find(|(unit, _)| text.ends_with(unit));
    let (unit, zeros) = found.copied().unwrap_or(("", 0));
    let number = text.strip_suffix(unit)?.trim_end();
    let (whole, part) = number.split_once('.').unwrap_or((number, ""));
    let part = part.trim_end_matches('0');
    let missing = zeros.checked_sub(part.len())?;
    let digits = format!("{whole}{part}{}", "0".repeat(missing));
    let fits = digits.bytes().all(|byte| byte.is_ascii_digit());
    let rate = digits.parse().ok().filter(|_| fits);
    rate.filter(|rate| *rate > 0)
}

/// A value as it was before `\s`, `\t`, `\n`, `\r` and `\\` were written in it.
fn unescaped(value: &str) -> String {
    let mut letters = value.chars();
    let mut text = String::new();
    while let Some(letter) = letters.next() {
        text.push(match letter {
            '\\' => match letters.next() {
                Some('\\') => '\\',
                _ => ' ',
            },
            letter => letter,
        });
    }
    text
}

#[cfg(test)]
mod tests {
    use super::*;

    #[test]
    fn a_rate_is_read_exactly() {
        let cases = [
            ("2 MHz", 2_000_000),
            ("12.5 kHz", 12_500),
            ("1.234567 MHz", 1_234_567),
            ("3 GHz", 3_000_000_000),
            ("200 Hz", 200),
            ("2000000", 2_000_000),
            ("1.50 kHz", 1_500),
        ];
        for (text, expected) in cases {
            assert_eq!(rate(text), Some(expected), "{text}");
        }
        for text in [
            "",
            "0",
            "0 Hz",
            "Hz",
            "2.5 Hz",
            "-2 MHz",
            "fast",
            "1e6",
            "99999999999 GHz",
        ] {
            assert_eq!(rate(text), None, "{text}");
        }
    }

    #[test]
    fn the_lines_of_the_device_are_taken() {
        let text = "[global]\nsigrok version=0.5.2\nunitsize=9\n\n[device 1]\ncapturefile=logic-1\n\
                    total probes=3\nsamplerate=2 MHz\nprobe3=CH 3\nprobe1=\\sa\\\\b\nanalog4=A0\nunitsize=1\n";
        let channel = |number, name: &str| (number, name.to_string());
        let expected = Metadata {
            rate: Some(2_000_000),
            unit: 1,
            capture: Some("logic-1".to_string()),
            logic: vec![channel(1, " a\\b"), channel(3, "CH 3")],
            analog: vec![channel(4, "A0")],
        };
        assert_eq!(Metadata::of(text), Ok(expected));
        assert_eq!(Metadata::of(""), Ok(Metadata::default()));
    }

    #[test]
    fn what_does_not_fit_is_told() {
        let told = |lines: &str| Metadata::of(&format!("[device 1]\n{lines}")).unwrap_err();
        assert_eq!(
            told("capturefile=l\nunitsize=1\nprobe9=a"),
            "its metadata does not fit: channel 9, a, and unitsize=1"
        );
        assert!(told("unitsize=1\nprobe8=a").contains("does not fit"));
        // with channels and without, or a sample would be waited for that has no end
        for channel in ["probe1=a", "analog1=a"] {
            let words = told(&format!("capturefile=l\nunitsize=8193\n{channel}"));
            assert_eq!(words, "unitsize=8193 in its metadata is over 8192");
        }
        assert!(told(&format!("samplerate={}", "f".repeat(9999))).len() < 200);
        assert_eq!(
            told("samplerate=fast"),
            "samplerate=fast in its metadata is not understood"
        );
        assert!(told("probe0=a").contains("probe0=a"));
        assert!(told("probe99999=a").contains("probe99999=a"));
        assert!(told("unitsize=-1").contains("unitsize=-1"));
        assert!(told("capturefile=l\nunitsize=1\nprobe1=a\nprobe1=b").contains("twice"));
        assert!(told("capturefile=l\nunitsize=1\nprobe1=a $end").contains("$end in its name"));
        assert!(told("[device 2]").contains("more than one device"));
    }
}
