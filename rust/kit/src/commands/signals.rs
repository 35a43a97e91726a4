//! `kit signals`: what a waveform has.
use super::Command;
use crate::console::Console;
use crate::failure::{Outcome, DONE};
use crate::options::{Options, Spec};
use crate::vcd::{self, Header, Variable};
use crate::words;
use std::collections::HashMap;

/// The command.
pub const COMMAND: Command = Command {
    name: "signals",
    help: HELP,
    spec: Spec {
        values: &[],
        flags: &[],
    },
    run,
};

const HELP: &str = "\
kit signals WAVEFORM

Lists the variables of a waveform in the order of the file: the full path, the bits, the kind, and
the path of an earlier variable that is the same signal under another name. Bits are 1 for a single
one, [7:0] for a vector of which kit record takes a bit as PATH[3], and - for numbers, strings and
events, which have no bits to record. Only the header is read, so large files take no longer.

A WAVEFORM is a VCD, a gzip file with a VCD in it, a session file of sigrok (.sr), or an FST of
GTKWave, which needs the command fst2vcd; - is standard input. The first bytes tell which it is.

Example:

  $ kit signals examples/waves/logic-sigrok.vcd
  4 variables; times are in units of 100 ns
  libsigrok.ack     1        wire
  libsigrok.drop    1        wire
  libsigrok.strobe  1        wire
  libsigrok.busy    1        wire

The status is 0 when the variables are listed, 2 for a wrong command line, and 4 where the waveform
cannot be read or understood.
";

/// The columns are aligned up to paths of this length.
const WIDEST: usize = 60;

fn run(options: &Options, console: &mut Console) -> Outcome {
    let [path] = options.files(["one WAVEFORM"])?;
    let header = vcd::open(path)?.header;
    let lengths = header.variables.iter().map(|v| v.path.chars().count());
    let widest = lengths.filter(|length| *length <= WIDEST).max();
    let mut first: HashMap<&[u8], &str> = HashMap::new();
    let lines = header.variables.iter().map(|variable| {
        let same = first.get(variable.code.as_slice()).copied();
        first.entry(&variable.code).or_insert(&variable.path);
        line(variable, same, widest.unwrap_or_default())
    });
    console.say_all([heading(&header)].into_iter().chain(lines))?;
    Ok(DONE)
}

fn heading(header: &Header) -> String {
    let count = words::count(header.variables.len(), "variable");
    format!("{count}; {}\n", header.scale.describe())
}

/// The line of a variable, where `same` is the first with its code.
fn line(variable: &Variable, same: Option<&str>, widest: usize) -> String {
    let Variable { path, kind, .. } = variable;
    let bits = variable.bits();
    match same.filter(|same| same != path) {
        None => format!("{path:widest$}  {bits:<7}  {kind}\n"),
        Some(same) => format!("{path:widest$}  {bits:<7}  {kind:<7}  same as {same}\n"),
    }
}
