//! What the command line of `kit record` asks for.
use super::chosen::Chosen;
use super::written::OUTPUT;
use crate::failure::Failure;
use crate::options::Options;
use crate::output::{self, Output};
use crate::source;
use crate::vcd::{self, Constant, Edge, Header, Keep, Moments, Plan, Scale, Wanted, Wire, Wrong};
use std::path::{Path, PathBuf};

/// What is asked for, as far as it can be read without the waveform.
pub struct Request {
    /// The waveform.
    pub waveform: PathBuf,
    /// The text that numbers the signals.
    pub names: Option<PathBuf>,
    /// Where the record goes.
    pub output: PathBuf,
    /// Whether it may be any file but an input.
    force: bool,
    wanted: Vec<Wanted>,
    edge: Option<(Edge, String)>,
    chosen: Chosen,
    unknown: Option<bool>,
}

impl Request {
    /// Reads the options.
    pub fn of(options: &Options) -> Result<Request, Failure> {
        let [waveform] = options.files(["one WAVEFORM"])?;
        let usage = |words: &str| Failure::Usage(words.to_string());
        let list = options.text("--signals")?;
        let list = list.ok_or_else(|| usage("--signals NAME=PATH,.. must say what is recorded"))?;
        let (output, force) = Output::file(options, &OUTPUT)?;
        let edge = options.text("--on")?.map(edge).transpose()?;
        if edge.is_some() && options.value("--every").is_some() {
            let words = "--on and --every are two ways to take samples: give one of them";
            return Err(usage(words));
        }
        if edge.is_none() && options.flag("--settled") {
            let words = "--settled goes with --on: other samples have the settled values anyway";
            return Err(usage(words));
        }
        let chosen = Chosen::of(options)?;
        let unknown = options.text("--x")?.map(unknown).transpose()?;
        let names = options.value("--names").map(PathBuf::from);
        let wanted = wanted(list, names.as_deref())?;
        Ok(Request {
            waveform: waveform.clone(),
            names,
            output,
            force,
            wanted,
            edge,
            chosen,
            unknown,
        })
    }

    /// Asks that a record may be written, and what stands beside it.
    pub fn may_write(&self, record: &Path) -> Result<(), Failure> {
        let inputs = [&self.waveform].into_iter().chain(&self.names);
        let inputs: Vec<&Path> = inputs.map(PathBuf::as_path).collect();
        output::may_write(record, self.force, &OUTPUT, &inputs)
    }

    /// What is asked of the waveform, now that its header is read.
    pub fn plan(&self, options: &Options, header: &Header) -> Result<Plan, Failure> {
        let (mut wires, constants) = self.signals(header)?;
        let moments = match &self.edge {
            Some((_, clock)) if constants.iter().any(|constant| constant.name == *clock) => {
                let words = format!("--on: {clock} is a constant, and a clock is a variable");
                return Err(Failure::Usage(words));
            }
            Some((edge, clock)) => Moments::Edges(*edge, self.clock(header, clock, &mut wires)?),
            None => match time(options, "--every", header.scale)? {
                Some(0) => return Err(Failure::Usage("--every must be longer than 0".to_string())),
                Some(step) => Moments::Every(step),
                None => Moments::Changes,
            },
        };
        let [from, to] = between(options, header.scale)?;
        Ok(Plan {
            scale: header.scale,
            wires,
            constants,
            moments,
            from,
            to,
            keep: self.keep(options, header.scale)?,
            unknown: self.unknown,
            settled: options.flag("--settled"),
        })
    }

    /// Which samples are kept.
    fn keep(&self, options: &Options, scale: Scale) -> Result<Keep, Failure> {
        let around = time(options, "--around", scale)?;
        Ok(match self.chosen {
            Chosen::First(count) => Keep::First(count),
            Chosen::Last(count) => Keep::Last(count),
            Chosen::Around(count) => Keep::Around(around.unwrap_or_default(), count),
            Chosen::Windows(windows) => Keep::Windows(windows),
        })
    }

    /// The chosen bits, and the signals that are constants.
    fn signals(&self, header: &Header) -> Result<(Vec<Wire>, Vec<Constant>), Failure> {
        let (mut wires, mut constants) = (Vec::new(), Vec::new());
        for Wanted { name, path, number } in &self.wanted {
            let wrong = |words: String| Wrong::Whole(words).of(&self.waveform);
            match vcd::constant(header, path).map_err(wrong)? {
                None => wires.push(self.wire(header, name, path, Some(*number))?),
                Some(high) => constants.push(Constant {
                    name: name.clone(),
                    high,
                    number: *number,
                }),
            }
        }
        Ok((wires, constants))
    }

    /// The index of the clock among the wires; one that is no NAME is found by its path and added.
    fn clock(&self, header: &Header, clock: &str, wires: &mut Vec<Wire>) -> Result<usize, Failure> {
        if let Some(index) = wires.iter().position(|wire| wire.name == clock) {
            return Ok(index);
        }
        wires.push(self.wire(header, clock, clock, None)?);
        Ok(wires.len().saturating_sub(1))
    }

    fn wire(
        &self,
        header: &Header,
        name: &str,
        path: &str,
        number: Option<u8>,
    ) -> Result<Wire, Failure> {
        let wrong = |words: String| Wrong::Whole(words).of(&self.waveform);
        let (path, probe) = vcd::find(header, path).map_err(wrong)?;
        let name = name.to_string();
        Ok(Wire {
            name,
            path,
            probe,
            number,
        })
    }
}

/// Reads the signals. Where a text numbers them, each that it declares must be there.
fn wanted(list: &str, text: Option<&Path>) -> Result<Vec<Wanted>, Failure> {
    let Some(text) = text else {
        return vcd::wanted(list, None);
    };
    let names = source::declared(text)?;
    let wanted = vcd::wanted(list, Some(&names))?;
    vcd::all_wanted(&wanted, text, &names)?;
    Ok(wanted)
}

/// Reads `posedge CLOCK`.
fn edge(text: &str) -> Result<(Edge, String), Failure> {
    let text = text.trim();
    let parts = text.split_once(char::is_whitespace);
    let read = parts.and_then(|(word, clock)| Some((Edge::of(word)?, clock.trim().to_string())));
    let expected = "'posedge CLOCK', 'negedge CLOCK' or 'edge CLOCK'";
    read.ok_or_else(|| Failure::Usage(format!("--on is {expected}, not '{text}'")))
}

fn unknown(text: &str) -> Result<bool, Failure> {
    match text {
        "0" => Ok(false),
        "1" => Ok(true),
        _ => Err(Failure::Usage(format!("--x is 0 or 1, not '{text}'"))),
    }
}

/// The times between which samples are taken.
fn between(options: &Options, scale: Scale) -> Result<[Option<u128>; 2], Failure> {
    let (from, to) = (
        time(options, "--from", scale)?,
        time(options, "--to", scale)?,
    );
    if let Some((from, to)) = from.zip(to).filter(|(from, to)| to < from) {
        let (from, to) = (scale.show(from), scale.show(to));
        return Err(Failure::Usage(format!(
            "--to: {to} is before {from}, which --from gives, so no sample is between them"
        )));
    }
    Ok([from, to])
}

/// The time that an option gives.
fn time(options: &Options, name: &str, scale: Scale) -> Result<Option<u128>, Failure> {
    let wrong = |words: String| Failure::Usage(format!("{name}: {words}"));
    let text = options.text(name)?;
    text.map(|text| scale.read(text).map_err(wrong)).transpose()
}
