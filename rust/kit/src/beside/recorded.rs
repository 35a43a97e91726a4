//! What `kit record` writes beside a record.
use super::{Beside, Identity};
use crate::vcd::{Plan, Taken};
use crate::words;
use serde::{Deserialize, Serialize};

/// What is known of a record.
#[derive(Clone, Debug, PartialEq, Eq, Serialize, Deserialize)]
pub struct Recorded {
    written_by: String,
    /// The version of the kit that wrote it.
    pub kit: String,
    /// The record.
    pub record: Identity,
    /// The waveform that it was taken from.
    pub waveform: Identity,
    /// The words of the command line.
    pub options: Vec<String>,
    /// The signals, in the order of their numbers.
    pub signals: Vec<Signal>,
    /// The time of each sample.
    pub times: Vec<String>,
}

/// A signal of a record.
#[derive(Clone, Debug, PartialEq, Eq, Serialize, Deserialize)]
pub struct Signal {
    /// Its number, 0 to 63.
    pub number: u8,
    /// Its name.
    pub name: String,
    /// Its path in the waveform, or what it is in every sample.
    pub from: String,
}

impl Beside for Recorded {
    const WRITER: &'static str = "kit record";
    const WHAT: &'static str = "record";

    fn written_by(&self) -> &str {
        &self.written_by
    }

    fn about(&self) -> &Identity {
        &self.record
    }

    fn named(&self) -> Vec<(u8, &str)> {
        let signals = self.signals.iter();
        signals.map(|it| (it.number, it.name.as_str())).collect()
    }

    fn misfit(&self, bytes: &[u8]) -> Option<&'static str> {
        let samples = xistomar::samples(bytes).map(|samples| samples.len());
        let fits = samples == Ok(self.times.len());
        (!fits).then_some("it has not one time for each sample")
    }

    fn texts(&self) -> Vec<&str> {
        let Recorded { kit, waveform, .. } = self;
        let texts = [kit, &waveform.file, &waveform.sha256].into_iter();
        let texts = texts.chain(self.signals.iter().map(|signal| &signal.from));
        texts.chain(&self.times).map(String::as_str).collect()
    }
}

impl Recorded {
    /// What is known of samples that were just taken.
    pub fn of(
        (plan, taken): (&Plan, &Taken),
        record: Identity,
        waveform: Identity,
        options: &[String],
    ) -> Recorded {
        Recorded {
            written_by: Recorded::WRITER.to_string(),
            kit: crate::VERSION.to_string(),
            record,
            waveform,
            options: options.to_vec(),
            signals: signals(plan),
            times: taken.times.iter().map(|it| plan.scale.show(*it)).collect(),
        }
    }

    /// `15 ns to 105 ns`, or the time of the only sample; nothing where there is none.
    pub fn span(&self) -> Option<String> {
        words::span(&self.times, String::clone)
    }
}

/// The signals that a plan records, in the order of their numbers.
pub fn signals(plan: &Plan) -> Vec<Signal> {
    let wires = plan.wires.iter().filter_map(|wire| {
        Some(Signal {
            number: wire.number?,
            name: wire.name.clone(),
            from: wire.path.clone(),
        })
    });
    let constants = plan.constants.iter().map(|constant| Signal {
        number: constant.number,
        name: constant.name.clone(),
        from: format!("{} in every sample", u8::from(constant.high)),
    });
    let mut signals: Vec<Signal> = wires.chain(constants).collect();
    signals.sort_by_key(|signal| signal.number);
    signals
}

/// A line for each signal: its number, its name and where it came from, aligned.
pub fn signal_lines(signals: &[Signal]) -> String {
    let letters = signals.iter().map(|signal| signal.name.chars().count());
    let letters = letters.max().unwrap_or_default();
    let lines = signals.iter().map(|Signal { number, name, from }| {
        let words = format!("{name:letters$}  {from}");
        (usize::from(*number), words)
    });
    words::numbered("signal", &lines.collect::<Vec<_>>())
}
