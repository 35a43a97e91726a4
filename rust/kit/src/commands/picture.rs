//! `kit picture`: the verdict as a picture.
use super::Command;
use crate::console::Console;
use crate::engine::Engine;
use crate::failure::{Failure, Outcome, DONE};
use crate::files;
use crate::options::{Options, Spec};
use crate::origin::{self, Origin};
use crate::output::{self, Kind, Output, FORCE};
use crate::picture::{self, Scene};
use crate::refusals;
use crate::source::{self, Source};
use crate::verdict::{self, Refused, Stopped};
use crate::words;
use std::path::Path;

/// The command.
pub const COMMAND: Command = Command {
    name: "picture",
    help: HELP,
    spec: Spec {
        values: &["-o", "--names", "--engine"],
        flags: &[FORCE],
    },
    run,
};

fn run(options: &Options, console: &mut Console) -> Outcome {
    let [table, record] = options.files(["TABLE", "RECORD"])?;
    let output = Output::of(options, &OUTPUT)?;
    let engine = Engine::of(options)?;
    let names = options.value("--names").map(Path::new);
    let inputs = [Some(table.as_path()), Some(record), names];
    let inputs: Vec<&Path> = inputs.into_iter().flatten().collect();
    output.may_write(&OUTPUT, &inputs)?;
    let source = source::table(table, names)?;
    let bytes = files::read(record)?;
    let (scene, alone) = scene(engine, (table, &source), (record, &bytes))?;
    output.write(&picture::draw(&scene), console)?;
    let (shown, line) = (output.shown(), scene.verdict.judgement);
    let count = words::count(scene.verdict.samples(), "sample");
    let alone = match alone {
        true => ", judged by the plain engine alone",
        false => "",
    };
    let said = format!("{shown}: {line}, {count}{alone}\n");
    match output {
        Output::Standard => console.tell(&said),
        Output::File { .. } => console.say(&said)?,
    }
    Ok(DONE)
}

/// What is drawn of a record by a table, and whether the plain engine judged alone.
fn scene(
    engine: Engine,
    (table, source): (&Path, &Source),
    (record, bytes): (&Path, &[u8]),
) -> Result<(Scene, bool), Failure> {
    let stopped = |stopped: Stopped| match stopped {
        Stopped::Refused(Refused::Table(refusal)) => {
            refusals::table_failure(table, source, refusal)
        }
        Stopped::Refused(Refused::Record(refusal)) => refusals::failure(record, refusal),
        Stopped::Differ(difference) => difference.failure(&[table, record]),
    };
    let (mut engines, samples) = verdict::ready(engine, &source.table, bytes).map_err(stopped)?;
    let origin = Origin::of((table, source), (record, bytes))?;
    let scene = Scene::of(&mut engines, &source.table, &origin.names, &samples)
        .map_err(|unjudged| stopped(Stopped::by_table(unjudged)))?;
    // the times stand on the axis
    let lines = origin.lines().into_iter();
    let lines = lines.filter(|(label, _)| *label != origin::TIMES);
    let scene = Scene {
        comment: source.comment.clone(),
        times: origin.times().to_vec(),
        origin: lines
            .map(|(label, words)| (label.to_string(), words))
            .collect(),
        ..scene
    };
    Ok((scene, engines.engine() == Engine::Plain))
}

/// The bytes of a picture that is looked at, at most: 63 samples of 64 signals have far fewer.
const LONGEST: u64 = 1 << 24;

/// What the command writes: a picture is its own by its second line.
const OUTPUT: Kind = Kind {
    command: "picture",
    what: "a picture",
    ending: ".svg",
    text: true,
    own: |path| picture::is_signed(&output::standing(path, LONGEST)),
    beside: None,
};

const HELP: &str = "\
kit picture TABLE RECORD [--names FILE.txt] [--engine both|fast|plain] -o FILE.svg [--force]

Draws the verdict on a record as an SVG picture, and prints its level in one line. Any browser opens
the picture; it has no scripts and needs no other file.

From top to bottom it shows

  the title         the comment before the first word of the text that the table is made of
  the verdict       the program's line, what the level means, and the assertion
  the samples       a column each, from 0, and a dashed region for what comes after the record
  the times         of the samples, where RECORD.json tells them: all that have room
  the ticks         a row for each clock of the assertion, with a mark where it ticks
  the changes       a row for each rose(a) and fell(a), with an arrow where it is so
  the signals       a waveform each: all that have a name or that the assertion asks about
  the implications  a row for each |->, |=>, #-# and #=#, by its left side, with a disc where its
                    right side was asked from a sample at which it was reached, and a ring where it
                    was only reached
  the bracket       from the sample at which the decisive part was asked to the one at which it
                    closed; one that is open has no right end
  the levels        the level at the start and after each sample, as a bar with its digit
  the legend        what the bars and the marks mean
  the files         the table, the record and the waveform with their SHA-256, where each signal
                    came from, whose the names are, and the version of the kit

A flag marks the sample at which the level closed, with its time: a 3 or a 0 stays, whatever comes
next. Without a flag the level is open at the end of the record.

  TABLE             a .svt file, or a text whose name ends in .txt
  RECORD            a .svw file of at most 63 samples
  --names FILE.txt  a text that declares the signals' names, for a .svt, as for kit judge. Its
                    comment is no title, since it is not what is judged
  --engine WHICH    both, which is the default, fast or plain, as for kit judge. Where the plain
                    engine judges alone there are no rows for |->, no decisive part and no bracket,
                    and the picture and the line say so
  -o FILE.svg       where the picture goes; - is standard output, and then the line goes to standard
                    error. A file that is there already is written over only where kit picture wrote
                    it
  --force           -o may have any ending, and writes over any file but an input

Example:

  $ kit picture examples/flush.svt examples/flush-open.svw -o flush.svg
  flush.svg: level 1 tested yes, 3 samples

The status is 0 when the picture is written, 2 for a wrong command line, 3 where the table or the
record is refused, 4 where a file cannot be read, written or understood, and 5 where the engines
differ. Only with status 0 is anything written, but where standard output cannot take the answer:
that is 4, and the picture is there.
";
