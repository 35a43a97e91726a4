//! Finding the one bit that a path names among the variables of a waveform.
use super::header::Header;
use super::variable::{Range, Variable};
use crate::names;
use std::borrow::Cow;

/// The candidates that a message lists, at most.
const LISTED: usize = 8;
/// The variables that are compared for a hint, at most.
const COMPARED: usize = 20_000;

/// Where the changes of one bit are found.
#[derive(Clone, Debug, PartialEq, Eq)]
pub struct Probe {
    /// The code of its variable.
    pub code: Vec<u8>,
    /// The bits of the variable.
    pub width: u32,
    /// The bit's place, counted from 0 at the right.
    pub place: u32,
}

/// A bit that was found.
#[derive(Clone, Debug)]
pub struct Wire {
    /// What messages call it: the name that it was given, or its path.
    pub name: String,
    /// Its full path, with the bit's index where it is one of several.
    pub path: String,
    /// Where its changes are found.
    pub probe: Probe,
    /// The signal's number in the record; none where it is a clock alone.
    pub number: Option<u8>,
}

/// A signal that is the same in every sample.
#[derive(Clone, Debug)]
pub struct Constant {
    /// Its name.
    pub name: String,
    /// Whether it is 1.
    pub high: bool,
    /// The signal's number in the record.
    pub number: u8,
}

/// Reads `0` or `1` in the place of a path; `1'b0` and `1'b1` are the same, for waveforms in which a
/// variable is called `0` or `1`, as some logic analysers call theirs.
pub fn constant(header: &Header, path: &str) -> Result<Option<bool>, String> {
    match path {
        "1'b0" | "1'b1" => return Ok(Some(path == "1'b1")),
        "0" | "1" => {}
        _ => return Ok(None),
    }
    match fits(header, path).first() {
        None => Ok(Some(path == "1")),
        Some((Variable { path: full, .. }, _)) => Err(format!(
            "{path} can be the variable {full} or a constant: write {full}, or 1'b{path} for a \
             signal that is {path} in every sample"
        )),
    }
}

/// What a path asks of a variable.
#[derive(Clone, Copy, PartialEq, Eq)]
enum Part {
    Whole,
    Bit(i64),
    Stretch,
}

/// A variable that fits a path.
type Fit<'a> = (&'a Variable, Part);

/// Finds the one bit that a path names: a full path, or the end of one at a dot where only one
/// variable ends so. Variables with the same code are one.
pub fn find(header: &Header, path: &str) -> Result<(String, Probe), String> {
    let fits = fits(header, path);
    let Some((first, _)) = fits.first() else {
        return Err(not_found(header, path));
    };
    let found: Vec<_> = fits.iter().map(|fit| bit(*fit)).collect();
    let good: Vec<&(String, Probe)> = found.iter().flatten().collect();
    let place = good.first().map(|(_, probe)| probe.place);
    let one_code = fits.iter().all(|(other, _)| other.code == first.code);
    let one_place = good.iter().all(|(_, probe)| Some(probe.place) == place);
    if !one_code || !one_place {
        return Err(ambiguous(path, &fits));
    }
    let found = found.iter().find(|found| found.is_ok()).or(found.first());
    found
        .cloned()
        .unwrap_or_else(|| Err(not_found(header, path)))
}

/// The variables that fit a path: by their full path where one does, else by its end.
fn fits<'a>(header: &'a Header, path: &str) -> Vec<Fit<'a>> {
    let split = Range::split(path).map(|(base, range)| match range {
        Range { left, right } if left == right => (base, Part::Bit(left)),
        _ => (base, Part::Stretch),
    });
    let readings: Vec<(&str, Part)> = [(path, Part::Whole)].into_iter().chain(split).collect();
    let all = |fits: fn(&Variable, &str) -> bool| -> Vec<Fit<'a>> {
        let fit = |variable: &'a Variable| {
            let reading = readings
                .iter()
                .find(|(base, part)| fits(variable, base) && !other_bit(variable, *part));
            reading.map(|(_, part)| (variable, *part))
        };
        header.variables.iter().filter_map(fit).collect()
    };
    let exact = all(|variable, base| variable.path == base);
    if exact.is_empty() {
        return all(ends_so);
    }
    exact
}

/// Whether a path ends so at a dot. Backslashes, which mark escaped names, need not be given.
fn ends_so(variable: &Variable, end: &str) -> bool {
    let (path, name, end) = (plain(&variable.path), plain(variable.name()), plain(end));
    let front = path.strip_suffix(end.as_ref());
    front.is_some_and(|front| front.is_empty() || front.ends_with('.')) && end.len() >= name.len()
}

fn plain(text: &str) -> Cow<'_, str> {
    match text.contains('\\') {
        true => Cow::Owned(text.replace('\\', "")),
        false => Cow::Borrowed(text),
    }
}

/// Whether a variable is one bit of a vector, and another one than is asked for.
fn other_bit(variable: &Variable, part: Part) -> bool {
    match (variable.range, part) {
        (Some(range), Part::Bit(index)) if variable.width == 1 => range.left != index,
        _ => false,
    }
}

/// The bit of a variable that fits.
fn bit((variable, part): Fit) -> Result<(String, Probe), String> {
    let Variable {
        path, width, code, ..
    } = variable;
    let bits = variable.bits();
    if !variable.has_bits() {
        let kind = &variable.kind;
        return Err(format!(
            "{path} has no bits to record: it is declared as {kind} of size {width}"
        ));
    }
    let (path, place) = match (part, variable.indexes()) {
        (Part::Whole, None) => (path.clone(), Some(0)),
        (Part::Whole, Some(range)) if *width == 1 => (format!("{path}[{}]", range.left), Some(0)),
        (Part::Bit(index), None) => {
            return Err(format!("{path} is one bit: leave [{index}] out"));
        }
        (Part::Bit(index), Some(range)) => (format!("{path}[{index}]"), range.place(index)),
        (_, range) => {
            let right = range.map_or(0, |range| range.right);
            return Err(format!(
                "{path} has the bits {bits}: choose one of them, such as {path}[{right}]"
            ));
        }
    };
    let place = place.and_then(|place| u32::try_from(place).ok());
    let place = place.ok_or_else(|| format!("there is no {path}: the bits are {bits}"))?;
    let (code, width) = (code.clone(), *width);
    Ok((path, Probe { code, width, place }))
}

/// Whether no path tells two variables apart.
fn alike(one: &Variable, other: &Variable) -> bool {
    one.path == other.path && one.bits() == other.bits()
}

fn ambiguous(path: &str, fits: &[Fit]) -> String {
    if let [(first, _), others @ ..] = fits {
        if others.iter().all(|(other, _)| alike(first, other)) {
            let (path, count) = (&first.path, fits.len());
            return format!(
                "{path} is declared {count} times for different signals, so it is not known which is meant"
            );
        }
    }
    let mut words = format!("{path} can be any of these, so give more of the path:");
    for (variable, _) in fits.iter().take(LISTED) {
        let bits = Some(variable.bits()).filter(|bits| bits.starts_with('['));
        words.push_str(&format!(
            "\n  {}{}",
            variable.path,
            bits.unwrap_or_default()
        ));
    }
    if let Some(more) = fits.len().checked_sub(LISTED).filter(|more| *more > 0) {
        words.push_str(&format!("\n  and {more} more"));
    }
    words
}

/// The message for a path that nothing fits, with the nearest that there is.
fn not_found(header: &Header, path: &str) -> String {
    let nearest = |wrong: &str| {
        let dots = wrong.matches('.').count();
        let variables = header.variables.iter().take(COMPARED);
        names::nearest(wrong, variables.map(|variable| tail(&variable.path, dots)))
    };
    let base = Range::split(path).map_or(path, |(base, _)| base);
    let hint = match nearest(path).or_else(|| nearest(base)) {
        Some(near) => format!("did you mean {near}? "),
        None => String::new(),
    };
    format!("there is no variable {path}; {hint}kit signals lists what is there")
}

/// The end of a path with this many dots in it, or all of it.
fn tail(path: &str, dots: usize) -> &str {
    match path.rmatch_indices('.').nth(dots) {
        Some((place, dot)) => path.get(place.saturating_add(dot.len())..).unwrap_or(path),
        None => path,
    }
}
