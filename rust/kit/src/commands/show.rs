//! `kit show`: a table or a record, as text.
mod expanded;
mod form;
mod nodes;
mod record;
mod refused;

use super::Command;
use crate::assertion::Assertion;
use crate::console::Console;
use crate::failure::{Failure, Outcome, DONE, REFUSED};
use crate::files;
use crate::notation;
use crate::options::{Options, Spec};
use crate::refusals;
use crate::source::{self, Source};
use std::path::Path;

/// The command.
pub const COMMAND: Command = Command {
    name: "show",
    help: HELP,
    spec: Spec {
        values: &["--names"],
        flags: &["--nodes", "--expanded"],
    },
    run,
};

const HELP: &str = "\
kit show TABLE|RECORD [--names FILE.txt] [--nodes] [--expanded]

Writes the assertion of a table in the kit's notation to standard output. The text can be read
again: kit table makes a table of it that has the same verdict on every record. Booleans that
nothing uses are left out, and equal ones become one. A comment tells where a table has a later
version than its operators need, since kit table then writes an earlier one.

Of a record it writes a line for each sample: its number, its time where that is known, the 64
signals as one number, of which bit 3 is signal 3, and the names of the signals that are 1, or -
where none is. Names and times are known where kit record wrote FILE.svw.json beside the record;
before the samples there is then a line for each signal, with where it came from.

A refused table is shown as `refused 6 at 3`, the words for that number, what was found, and for a
refused node the nodes up to it and two more. A refused record is shown so too.

  TABLE             a .svt file, or a text whose name ends in .txt
  RECORD            a file whose name ends in .svw
  --names FILE.txt  a text that declares the signals' names, for a .svt or a .svw. Without it they
                    are those of the .json beside the file, and where there is none signal 3 is s3
  --nodes           the version and the nodes instead of the text: number, operator, x, y, what
                    the node is called, with the numbers of its fourth byte, and the part of the
                    assertion that it stands for
  --expanded        the table with its derived operators written out; with --nodes node by node as
                    the judge reads it. A comment tells where the text makes fewer nodes

Examples:

  $ kit show flush.svt --names flush.txt
  signals ack=0 drop=1 strobe=2

  always (ack |-> strong((!drop)[*1:$] ##0 strobe))

  $ kit show examples/flush-open.svw --names flush.txt
  3 samples; names are not known of the record, for there is no examples/flush-open.svw.json
  sample 0  0x0  -
  sample 1  0x1  ack
  sample 2  0x0  -

The status is 0 when the file is shown, 2 for a wrong command line, 3 where the table or the record
is refused, and 4 where a file cannot be read or understood.
";

fn run(options: &Options, console: &mut Console) -> Outcome {
    let [path] = options.files(["one TABLE or RECORD"])?;
    let names = options.value("--names").map(Path::new);
    if source::is_record(path) {
        return run_record(path, names, options, console);
    }
    let source = source::table(path, names)?;
    let expanded = options.flag("--expanded");
    let given = match expanded {
        true => expanded::of(&source),
        false => Ok(source.clone()),
    };
    let given = given.and_then(|given| {
        let assertion = Assertion::of_table(&given.table)?;
        Ok((given, assertion))
    });
    let shown = match given {
        Err(refusal) => {
            console.say(&refused::report(&source, refusal))?;
            return Ok(REFUSED);
        }
        Ok((given, assertion)) if options.flag("--nodes") => {
            nodes::accepted(&given.table, &assertion, &given.names)
        }
        Ok((given, assertion)) if expanded => expanded::text(&assertion, &given.names),
        Ok((given, assertion)) => text(&given, &assertion),
    };
    console.say(&shown)?;
    Ok(DONE)
}

fn run_record(
    path: &Path,
    names: Option<&Path>,
    options: &Options,
    console: &mut Console,
) -> Outcome {
    if let Some(flag) = ["--nodes", "--expanded"]
        .into_iter()
        .find(|flag| options.flag(flag))
    {
        let words = format!("{flag} goes with a table: a record has samples and no nodes");
        return Err(Failure::Usage(words));
    }
    let bytes = files::read(path)?;
    let text = names.map(|text| Ok((text, source::declared(text)?)));
    let text = text.transpose()?;
    let samples = match xistomar::samples(&bytes) {
        Ok(samples) => samples,
        Err(refusal) => {
            console.say(&record::refused(&bytes, refusal))?;
            return Ok(REFUSED);
        }
    };
    let known = record::known(path, &bytes, text.as_ref());
    // a record whose names are not to be trusted is shown with numbers, and then why
    let recorded = known.as_ref().map(Option::as_ref).map_err(|_| ());
    let shown = record::accepted(path, &samples, recorded, text.as_ref());
    console.say(&shown)?;
    known.map(|_| DONE)
}

/// The text, after comments that say what the judge refuses in it, and which version is not kept.
fn text(source: &Source, assertion: &Assertion) -> String {
    let mut text = String::new();
    let (given, needed) = (form::version(&source.table), assertion.tidy().version());
    if given != needed {
        text.push_str(&format!(
            "// the table has version {given}, and kit table writes this text as version {needed}: \
             nothing in it needs more\n"
        ));
    }
    if let Some(words) = refusals::sequence(assertion) {
        text.push_str(&format!("// a sequence: {words}\n"));
    }
    if let Some(words) = refusals::too_large(source) {
        text.push_str(&format!("// {words}\n"));
    }
    text + &notation::write(assertion, &source.names)
}
