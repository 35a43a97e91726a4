//! `kit table`: an assertion as text, to a table.
use super::Command;
use crate::assertion::Assertion;
use crate::beside::{Identity, Tabled};
use crate::console::Console;
use crate::failure::{Failure, Outcome, DONE};
use crate::files;
use crate::notation::{self, Text};
use crate::once;
use crate::options::{Options, Spec};
use crate::output::{self, write_whole, Kind, Output, FORCE};
use crate::refusals;
use crate::sizes::{self, Sizes};
use crate::source::{self, Source};
use crate::words;
use std::path::Path;
use xistomar::Refusal;

/// The command.
pub const COMMAND: Command = Command {
    name: "table",
    help: HELP,
    spec: Spec {
        values: &["-o"],
        flags: &["--once", FORCE],
    },
    run,
};

const HELP: &str = "\
kit table FILE.txt -o FILE.svt [--once] [--force]

Reads an assertion in the kit's notation and writes it as a table for the judge. The text names the
signals of a sample by their numbers, 0 to 63, and then says the assertion:

  signals ack=0 drop=1 strobe=2
  // from each acknowledge on, the media strobe comes before the supply drops
  always (ack |-> strong((!drop)[*1:$] ##0 strobe))

The operators, tightest first, what a signal does, and what makes a property of a sequence:

  R[*0]   R[*1:$]       nothing at all; R once or more
  R[*3]   R[*2:5]       R three times in a row; two to five times
  b[->2]   b[=2]        up to the second sample with b; any stretch with exactly two of them
  !b   b & c   b | c    not, and, or; 0 and 1 are constants
  R ##1 S   R ##0 S     R and then S; R and S that share one sample
  R ##3 S   R ##[1:4] S S begins three samples after R ends; one to four samples after
  not P                 P does not hold
  nexttime P            P holds from the next sample on, or that is past the end, or no tick comes
  s_nexttime P          P holds from the next sample on, and that is not past the end
  P and Q
  R or S   P or Q
  P until Q             P at each sample before one with Q, or at every sample
  P s_until Q           the same, and Q has to come
  R |-> P   R |=> P     wherever R ends, P holds from its last sample on; from the next one on
  R #-# P   R #=# P     somewhere R ends, and P holds from its last sample on; from the next one on
  always P              P at every sample
  s_eventually P        P at some sample
  @(c) X                X, seen only at the samples where c is 1

  rose(a)   fell(a)     signal a has risen, has fallen, since the sample before; before sample 0
                        all signals were 0

  strong(R)             a stretch from here on matches R
  weak(R)               nothing seen so far rules R out

Here a is a signal, b and c are booleans of one sample, R and S sequences, P and Q properties, and X
is one of the last two. Parentheses group. A line such as `let busy = a & !b` between the signals
and the assertion gives a boolean a name. docs/NOTATION.md has the whole grammar.

The table has version 1, version 2 where rose or fell stands in it, or version 3 where one of these
does: [*m], [*m:n], [->m], [=m], ##m and ##[m:n] but for ##0 and ##1, |=>, #-#, #=#, always,
s_eventually, s_until, s_nexttime. The first line says so where it is not 1: benches that know
earlier versions alone refuse it with number 3. Version 3 is written out to the other operators
before it is judged, to at most 120 nodes. The first line says to how many, and a warning which
part is to be shortened where they are more. m and n are at most 15.

An assertion is asked at the first sample only, where SystemVerilog's `assert property` asks at
every tick: `always P` asks P at every sample. Where something has no always or until above it, that
is said, with what to write to ask it at every sample.

  -o FILE.svt       where the table goes. Beside it FILE.svt.json is written, which says what its
                    signals are called and by its SHA-256 which text it was made of; commands that
                    read the table look for it. A table that is there already is written over only
                    where kit table wrote it and it was not changed since
  --force           -o may have any ending, and writes over any file but an input
  --once            what is asked at the first sample only is meant so, and no word is said of it

Example:

  $ kit table flush.txt -o flush.svt
  flush.svt: version 3, 12 nodes, 15 written out, 3 signals, a property
  read as: always (ack |-> strong((!drop)[*1:$] ##0 strobe))

The status is 0 when the table is written, 2 for a wrong command line, 3 where the proved check
refuses the table, and 4 where a file cannot be read or written or the text has a mistake, which is
shown with its line and column. Only with status 0 is anything written, but where standard output
cannot take the answer: that is 4, and the table is there.
";

fn run(options: &Options, console: &mut Console) -> Outcome {
    let [input] = options.files(["one FILE.txt"])?;
    let (output, force) = Output::file(options, &OUTPUT)?;
    output::may_write(&output, force, &OUTPUT, &[input])?;
    let text = files::read_text(input)?;
    if ["SVT\u{1}\0", "SVT\u{2}\0", "SVT\u{3}\0"]
        .iter()
        .any(|mark| text.starts_with(mark))
    {
        let words = "this is a table and no text: kit show writes it as text";
        return Err(Failure::Failed(format!("{}: {words}", files::shown(input))));
    }
    let read = notation::read(&text).map_err(|mistake| source::wrong(input, &mistake))?;
    let table = read.assertion.table();
    xistomar::check(&table).map_err(|refusal| refused(input, &read, refusal))?;
    let tabled = Tabled::of(
        Identity::of(&output, &table),
        Identity::of(input, text.as_bytes()),
        notation::comment(&text),
        &read.names,
    );
    write_whole(&output::with_beside(&output, table.clone(), &tabled)?)?;
    let shown = files::shown(&output);
    let summary = summary(&read.assertion);
    let whole = notation::phrase(&read.assertion, read.assertion.root(), &read.names);
    let note = once::note(&read.assertion, &read.names, options);
    console.say(&format!("{shown}: {summary}\nread as: {whole}\n{note}"))?;
    let source = Source::made(table, read.names);
    if let Some(words) = refusals::too_large(&source) {
        let parts = sizes::past(&source.table, &source.names);
        let parts = parts.map(|(_, lines)| lines).unwrap_or_default();
        console.tell(&format!("kit table: warning: {shown}: {words}\n{parts}"));
    }
    Ok(DONE)
}

/// What the command writes.
const OUTPUT: Kind = Kind {
    command: "table",
    what: "a table",
    ending: ".svt",
    text: false,
    own: output::own::<Tabled>,
    beside: Some(output::own_beside::<Tabled>),
};

/// The failure for a table that the check refuses, with the part that it is about. Of what the
/// notation makes it refuses nothing but with 9.
fn refused(path: &Path, read: &Text, refusal: Refusal) -> Failure {
    let part = notation::phrase(&read.assertion, refusal.node(), &read.names);
    let failure = refusals::failure(path, refusal);
    let hollow = refusals::hollow(read.assertion.node(refusal.node()).operator);
    Failure::Refused(format!("{}\n  {part}\n{hollow}", failure.words()))
}

/// `15 nodes, 3 signals, a property`, after the version where it is not 1, and with the nodes that derived
/// operators are written out to.
fn summary(assertion: &Assertion) -> String {
    let mut nodes = words::count(assertion.nodes().len(), "node");
    let sizes = Sizes::of(assertion);
    if assertion.version() == 3 && !sizes.past() {
        nodes = format!("{nodes}, {} written out", sizes.all);
    }
    let signals = words::count(assertion.signals().len(), "signal");
    let kind = match refusals::sequence(assertion) {
        Some(words) => format!("a sequence: {words}"),
        None => "a property".to_string(),
    };
    let version = match assertion.version() {
        1 => String::new(),
        later => format!("version {later}, "),
    };
    format!("{version}{nodes}, {signals}, {kind}")
}
