//! The VCD text of a session: its header, and a line for each sample that differs from the one before.
use super::metadata::Metadata;

/// The times at which the text may count, in ticks of a second: 1 s, 100 ms, 10 ms, .. 1 fs.
const FINEST: u32 = 15;
/// The digits that codes are written with are `!` to `~`.
const CODES: usize = 94;

/// The header. The error says why it cannot be written.
pub fn head(metadata: &Metadata) -> Result<String, String> {
    let mut text = String::new();
    if let Some(rate) = metadata.rate {
        let zeros = zeros(rate).ok_or("its samplerate is too high for times in femtoseconds")?;
        text.push_str(&format!("$timescale {} $end\n", timescale(zeros)));
    }
    text.push_str("$scope module libsigrok $end\n");
    let logic = metadata.logic.iter().map(|channel| ("wire 1", channel));
    let analog = metadata.analog.iter().map(|channel| ("real 64", channel));
    for (place, (kind, (number, name))) in logic.chain(analog).enumerate() {
        let code = String::from_utf8_lossy(&code(place)).into_owned();
        let name = match name.trim() {
            "" => number.to_string(),
            name => name.to_string(),
        };
        text.push_str(&format!("$var {kind} {code} {name} $end\n"));
    }
    text.push_str("$upscope $end\n$enddefinitions $end\n");
    Ok(text)
}

/// The ticks of a second, as the zeros after a 1: the least that are no fewer than the samples, and up
/// to two more where a sample is then a whole number of ticks, as sigrok chooses them.
fn zeros(rate: u64) -> Option<u32> {
    let ticks = |zeros: &u32| 10u64.checked_pow(*zeros);
    let enough = |zeros: &u32| ticks(zeros).is_some_and(|ticks| ticks >= rate);
    let least = (0..=FINEST).find(enough)?;
    let whole = |zeros: &u32| ticks(zeros).is_some_and(|ticks| ticks % rate == 0);
    let most = least.saturating_add(2);
    let chosen = (least..=most).find(whole).unwrap_or(most);
    Some(chosen).filter(|zeros| *zeros <= FINEST)
}

/// A tick as `$timescale` has it.
fn timescale(zeros: u32) -> String {
    let units = ["s", "ms", "us", "ns", "ps", "fs"];
    let unit = units.get(zeros.div_ceil(3) as usize).unwrap_or(&"fs");
    let number = ["1", "100", "10"].get(zeros as usize % 3).unwrap_or(&"1");
    format!("{number} {unit}")
}

/// The code of a variable by its place: one digit, then two, and so on.
fn code(place: usize) -> Vec<u8> {
    let (mut code, mut rest) = (Vec::new(), Some(place));
    while let Some(left) = rest {
        let digit = u8::try_from(left % CODES).unwrap_or_default();
        code.push(b'!'.saturating_add(digit));
        rest = (left / CODES).checked_sub(1);
    }
    code
}

/// The text after the header, made from the samples as they come.
pub struct Body {
    /// The bytes of a sample.
    unit: usize,
    /// The samples and the ticks of a second.
    rate: u128,
    ticks: u128,
    /// Of each channel its byte in a sample, its bit in that and its code.
    channels: Vec<(usize, u8, Vec<u8>)>,
    /// The sample before, and how many there were.
    before: Vec<u8>,
    count: u64,
    /// The first bytes of a sample whose others are to come.
    part: Vec<u8>,
}

impl Body {
    /// No sample yet.
    pub fn of(metadata: Metadata) -> Body {
        let ticks = metadata.rate.and_then(zeros);
        let ticks = ticks.and_then(|zeros| 10u128.checked_pow(zeros));
        let place = |number: usize| number.saturating_sub(1);
        let channels = metadata
            .logic
            .iter()
            .enumerate()
            .map(|(index, (number, _))| {
                let bit = 1u8.checked_shl((place(*number) % 8) as u32).unwrap_or(0);
                (place(*number) / 8, bit, code(index))
            });
        Body {
            unit: metadata.unit.max(1),
            rate: metadata.rate.unwrap_or(1).into(),
            ticks: ticks.unwrap_or(1),
            channels: channels.collect(),
            before: Vec::new(),
            count: 0,
            part: Vec::new(),
        }
    }

    /// The text of more samples. What is left of the last stays for the next time.
    pub fn take(&mut self, bytes: &[u8]) -> Vec<u8> {
        let mut all = std::mem::take(&mut self.part);
        all.extend_from_slice(bytes);
        let mut text = Vec::new();
        let samples = all.chunks_exact(self.unit);
        self.part = samples.remainder().to_vec();
        for sample in samples {
            if self.before != sample {
                self.sample(sample, &mut text);
            }
            self.count = self.count.saturating_add(1);
        }
        text
    }

    /// The last line: the time at which the samples end.
    pub fn end(&self) -> Result<Vec<u8>, String> {
        match (self.part.is_empty(), self.count) {
            (false, _) => Err("its samples end inside one".to_string()),
            (true, 0) => Ok(Vec::new()),
            (true, _) => Ok(format!("#{}\n", self.time()).into_bytes()),
        }
    }

    /// Writes the line of a sample that differs from the one before, if a channel does.
    fn sample(&mut self, sample: &[u8], text: &mut Vec<u8>) {
        let time = format!("#{}", self.time());
        let start = text.len();
        for (byte, bit, code) in &self.channels {
            let value = |sample: &[u8]| sample.get(*byte).map(|byte| byte & bit != 0);
            let (before, now) = (value(&self.before), value(sample));
            if before != now {
                if text.len() == start {
                    text.extend_from_slice(time.as_bytes());
                }
                text.extend_from_slice(if now == Some(true) { b" 1" } else { b" 0" });
                text.extend_from_slice(code);
            }
        }
        if text.len() > start {
            text.push(b'\n');
        }
        self.before.clear();
        self.before.extend_from_slice(sample);
    }

    /// The tick of the next sample, the nearest one; of two that are as near the even one, as sigrok
    /// has it.
    fn time(&self) -> u128 {
        let scaled = u128::from(self.count).saturating_mul(self.ticks);
        let whole = scaled.checked_div(self.rate).unwrap_or_default();
        let rest = scaled.checked_rem(self.rate).unwrap_or_default();
        let up = match rest.saturating_mul(2).cmp(&self.rate) {
            std::cmp::Ordering::Less => 0,
            std::cmp::Ordering::Equal => whole % 2,
            std::cmp::Ordering::Greater => 1,
        };
        whole.saturating_add(up)
    }
}

#[cfg(test)]
mod tests {
    use super::*;

    #[test]
    fn ticks_are_chosen_as_sigrok_does() {
        // 2 MHz: 10^7 is the next decade, and 5 ticks are a sample; 3 kHz fits no decade
        let cases = [
            (1, 0, "1 s"),
            (10, 1, "100 ms"),
            (2, 1, "100 ms"),
            (100, 2, "10 ms"),
            (3_000, 6, "1 us"),
            (400_000_000, 10, "100 ps"),
            (2_000_000, 7, "100 ns"),
            (16, 4, "100 us"),
            (1_000_000_000_000_000, 15, "1 fs"),
        ];
        for (rate, expected, scale) in cases {
            assert_eq!(zeros(rate), Some(expected), "{rate}");
            assert_eq!(timescale(expected), scale);
        }
        assert_eq!(zeros(1_000_000_000_000_001), None);
        assert_eq!(zeros(300_000_000_000_000), None);
    }

    #[test]
    fn codes_differ() {
        let text = |place| String::from_utf8(code(place)).unwrap();
        assert_eq!([text(0), text(93)], ["!", "~"]);
        assert_eq!([text(94), text(95), text(188)], ["!!", "\"!", "!\""]);
    }

    fn metadata(rate: Option<u64>, unit: usize, logic: &[(usize, &str)]) -> Metadata {
        let logic = logic
            .iter()
            .map(|(number, name)| (*number, name.to_string()));
        Metadata {
            rate,
            unit,
            capture: Some("logic-1".to_string()),
            logic: logic.collect(),
            analog: vec![],
        }
    }

    #[test]
    fn a_line_for_each_sample_that_differs() {
        // bits 0 and 2 are channels, bit 1 is none; 32 samples a second are 312.5 ticks each
        let metadata = metadata(Some(32), 1, &[(1, "a"), (3, "CH 3"), (4, "")]);
        let head = head(&metadata).unwrap();
        let expected = "$timescale 100 us $end\n$scope module libsigrok $end\n$var wire 1 ! a $end\n\
                        $var wire 1 \" CH 3 $end\n$var wire 1 # 4 $end\n$upscope $end\n$enddefinitions $end\n";
        assert_eq!(head, expected);
        let mut body = Body::of(metadata);
        let text = [body.take(&[0, 1]), body.take(&[3, 4]), body.end().unwrap()].concat();
        // the nearest even ticks of 312.5 and 937.5; the sample at 625 has another bit 1 alone
        let expected = "#0 0! 0\" 0#\n#312 1!\n#938 0! 1\"\n#1250\n";
        assert_eq!(String::from_utf8(text).unwrap(), expected);
    }

    #[test]
    fn a_sample_may_come_in_parts() {
        let mut body = Body::of(metadata(None, 2, &[(1, "a"), (9, "b")]));
        let parts = [body.take(&[0]), body.take(&[1, 1]), body.take(&[0, 1])];
        assert_eq!(parts.concat(), b"#0 0! 1\"\n#1 1! 0\"\n");
        assert_eq!(body.end(), Err("its samples end inside one".to_string()));
        assert_eq!(body.take(&[1]), b"#2 1\"\n");
        assert_eq!(body.end(), Ok(b"#3\n".to_vec()));
        assert_eq!(Body::of(metadata(None, 1, &[])).end(), Ok(vec![]));
    }
}
