//! `kit batch`: the verdict on many records.
use super::Command;
use crate::batch::{self, Answer, By, Progress, Report, Run};
use crate::console::Console;
use crate::engine::{self, Engine, Engines, Unjudged};
use crate::failure::{Failure, Outcome, BELOW, DONE, REFUSED};
use crate::files::shown;
use crate::once;
use crate::options::{Options, Spec};
use crate::origin;
use crate::refusals;
use crate::required::Required;
use crate::source;
use crate::verdict::Reaching;
use std::path::{Path, PathBuf};
use std::time::Instant;

/// The command.
pub const COMMAND: Command = Command {
    name: "batch",
    help: HELP,
    spec: Spec {
        values: &["--names", "--require", "--engine"],
        flags: &["--tested", "--asked", "--named", "--once", "--list"],
    },
    run,
};

fn run(options: &Options, console: &mut Console) -> Outcome {
    let begun = Instant::now();
    let required = Required::of(options)?;
    let asked = Engine::of(options)?;
    let (path, given) = given(options)?;
    let source = source::table(path, options.value("--names").map(Path::new))?;
    let (reaching, engines) =
        accepted(asked, required, &source.table).map_err(|unjudged| match unjudged {
            Unjudged::Refused(refusal) => refusals::table_failure(path, &source, refusal),
            Unjudged::Differ(difference) => difference.failure(&[path]),
        })?;
    let found = batch::find(given);
    if found.places.is_empty() {
        return Err(no_record(given, found.others));
    }
    let mut progress = Progress::begin(console, found.places.len());
    let mut watch = |done| progress.draw(done);
    let by = By {
        reaching: &reaching,
        engines: &engines,
        names: &source.names,
        asked: origin::asked(&source.table),
    };
    let run = batch::judge_all(&by, &found.places, &mut watch);
    progress.erase();
    let report = Report {
        found: &found,
        run: &run,
        required,
        whole: begun.elapsed(),
    };
    let alone = match engines.engine() {
        Engine::Plain => engine::alone(engines.past()),
        _ => String::new(),
    };
    let note = once::note(reaching.assertion(), &source.names, options);
    let list = options.flag("--list");
    say(&report, list, &format!("{alone}{note}"), console)?;
    match (status(&run, required)?, found.empty.is_empty()) {
        (status, true) => Ok(status),
        (_, false) => Err(no_record(&found.empty, found.others)),
    }
}

/// Says what became of the records: of each where a list is asked for, of all in numbers, more on the
/// assertion, and the names of those that ask for a look.
fn say(report: &Report, list: bool, more: &str, console: &mut Console) -> Result<(), Failure> {
    let Report {
        found,
        run,
        required,
        ..
    } = report;
    if list {
        console.say_all(batch::list(found, run))?;
        console.say("\n")?;
    }
    console.say(&report.table())?;
    if !more.is_empty() {
        console.say(&format!("\n{more}"))?;
    }
    let mut names = batch::names(found, run, *required).peekable();
    if names.peek().is_some() {
        console.say("\n")?;
        console.say_all(names)?;
    }
    if let Some(words) = unsaid(run, *required) {
        console.tell(&words);
    }
    Ok(())
}

/// The table and its engines, unless they refuse it on no samples, with 12 and 13 too. Where only the plain
/// one judges and `--asked` needs the rows of the fast one, that one's refusal stands.
fn accepted(
    engine: Engine,
    required: Required,
    table: &[u8],
) -> Result<(Reaching, Engines), Unjudged> {
    let engines = Engines::of(engine, table)?;
    let reaching = Reaching::of(table)?;
    match engines.past() {
        Some(refusal) if required.asked && !reaching.implications().is_empty() => {
            Err(Unjudged::Refused(refusal))
        }
        _ => Ok((reaching, engines)),
    }
}

/// The table, and the folders and records.
fn given(options: &Options) -> Result<(&Path, &[PathBuf]), Failure> {
    match options.all_files() {
        [table, records @ ..] if !records.is_empty() => Ok((table, records)),
        _ => {
            let words = "a TABLE, and a folder of records or some records, must be given";
            Err(Failure::Usage(words.to_string()))
        }
    }
}

fn no_record(given: &[PathBuf], others: usize) -> Failure {
    let folders: Vec<String> = given.iter().map(|path| shown(path)).collect();
    let folders = folders.join(", ");
    let words = format!("{folders}: no file below ends in .svw; files passed over: {others}");
    Failure::Failed(words)
}

/// That records are broken where no level was required, so that the status does not say it.
fn unsaid(run: &Run, required: Required) -> Option<String> {
    let unsaid = |answer: &&Answer| matches!(answer, Answer::Judged(it) if required.unsaid(*it));
    let (broken, all) = (run.answers.iter().filter(unsaid).count(), run.answers.len());
    let are = if broken == 1 { "is" } else { "are" };
    (broken > 0).then(|| {
        format!(
            "kit batch: {broken} of {all} {are} broken, and no level was required, so the status does not say so: \
             --require 1 makes it 1\n"
        )
    })
}

/// A difference between the engines weighs most, then a file that cannot be read or does not fit, then a refused
/// one, and then a low level.
fn status(run: &Run, required: Required) -> Outcome {
    let count =
        |wanted: &dyn Fn(&Answer) -> bool| run.answers.iter().filter(|it| wanted(it)).count();
    let differ = count(&|answer| matches!(answer, Answer::Differ(_)));
    if differ > 0 {
        let words = format!(
            "the two engines differ on {differ} of {} records, which is a defect of Xistomar: please report it, with the \
             table and those records: the report ends with their names",
            run.answers.len()
        );
        return Err(Failure::Differ(words));
    }
    let unreadable = count(&|answer| matches!(answer, Answer::Unreadable(_)));
    let mismatched = count(&|answer| matches!(answer, Answer::Mismatched(_)));
    let all = run.answers.len();
    if unreadable > 0 {
        let words =
            format!("{unreadable} of {all} could not be read: the report ends with their names");
        Err(Failure::Failed(words))
    } else if mismatched > 0 {
        let words = format!(
            "{mismatched} of {all} were not judged, since the file beside them speaks of other signals or of other \
             bytes: the report ends with their names"
        );
        Err(Failure::Failed(words))
    } else if count(&|answer| matches!(answer, Answer::Refused(_))) > 0 {
        Ok(REFUSED)
    } else if count(&|it| matches!(it, Answer::Judged(it) if !required.reached(*it))) > 0 {
        Ok(BELOW)
    } else {
        Ok(DONE)
    }
}

const HELP: &str = "\
kit batch TABLE DIR|FILES.. [--names FILE.txt] [--require N] [--tested] [--asked] [--named]
                            [--once] [--list] [--engine both|fast|plain]

Judges many records by one table and reports how many held, are open or broken, are refused, or
could not be read. Of a folder every file below it whose name ends in .svw is judged, by name; links
to folders are not entered. A torn or unreadable file is counted and named, and the run goes on. So
is one whose RECORD.json speaks of other signals than the table does, or of other bytes, and it is
not judged. Every record that misses what --require, --tested, --asked and --named ask is named, and
of the others that are broken the first twenty. The report counts the records that did not test the
assertion, those that never asked some |->, where |=>, #-# and #=# count too, and those of which
nothing says that their signals are the table's, since the table or the record has no names; and it
says what is asked at the first sample only, and how to ask it at every one.

While it runs, a terminal shows a bar on standard error. The slowest record is the one that took
longest to judge, reading not counted.

  TABLE             a .svt file, or a text whose name ends in .txt
  DIR|FILES..       folders of records, and records
  --names FILE.txt  a text that declares the signals' names, for a .svt that has none beside it
  --require N       the level of every record must be N or higher: 0, 1, 2 or 3
  --tested          every record must test the assertion: some strong or weak in it must be reached
  --asked           every record must ask every |->, and every |=>, #-# and #=#: its right side must
                    be asked, from a sample at which it was reached
  --named           the assertion and every record must be known to mean the same signals: both have
                    names, and they agree
  --once            what is asked at the first sample only is meant so, and no word is said of it
  --engine WHICH    both, which is the default, fast, which is the quickest, or plain, as for kit
                    judge. Where the plain engine judges alone the report says so, and does not
                    say of |-> which were asked
  --list            before the report, a line for each record in order and then an empty one:
                    run/0001.svw: level 2 tested yes
                    run/0004.svw: level 2 tested yes, a |-> never asked
                    run/0002.svw: refused 5 at 0
                    run/0003.svw: unreadable: there is no such file
                    run/0005.svw: mismatched: signal 1 is drop in the assertion, strobe in the ..

Example, for every record of tonight's run, none of them broken:

  $ kit batch flush.svt run/ --require 1

The status is 5 where the engines differ on a record, or else 4 where a file or a folder could not
be read or a record does not fit what is known of it, or else 3 where a record is refused (or the
table, and then nothing is judged), or else 1 where a record does not reach what --require, --tested
and --asked ask, or else 0. It is 2 for a wrong command line.
";

#[cfg(test)]
mod tests {
    use super::*;
    use crate::engine::Difference;
    use xistomar::{Judgement, Level};

    /// A difference between the engines weighs more than a file that cannot be read.
    #[test]
    fn a_difference_weighs_most() {
        let judgement = |tested| Judgement {
            level: Level::Strong,
            tested,
        };
        let difference = Difference {
            fast: Ok(judgement(true)),
            plain: Ok(judgement(false)),
            samples: 0,
        };
        let unreadable = Answer::Unreadable("there is no such file".to_string());
        let answers = vec![unreadable, Answer::Differ(difference)];
        let run = Run {
            answers,
            slowest: None,
        };
        let failure = status(&run, Required::default()).unwrap_err();
        assert_eq!(failure.status(), 5);
        let begins = "the two engines differ on 1 of 2 records, which is a defect";
        assert!(failure.words().starts_with(begins), "{}", failure.words());
    }
}
