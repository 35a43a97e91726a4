//! The commands of the kit, and its help.
mod batch;
mod judge;
mod picture;
mod record;
mod show;
mod signals;
mod table;

use crate::console::Console;
use crate::failure::{Failure, Outcome, DONE};
use crate::names;
use crate::options::{Options, Spec};
use std::ffi::OsString;

/// A command: what it is called, what its help says, which options it takes, what it does.
struct Command {
    name: &'static str,
    help: &'static str,
    spec: Spec,
    run: fn(&Options, &mut Console) -> Outcome,
}

const COMMANDS: [Command; 7] = [
    table::COMMAND,
    show::COMMAND,
    signals::COMMAND,
    record::COMMAND,
    judge::COMMAND,
    picture::COMMAND,
    batch::COMMAND,
];

/// Runs the kit on the words of a command line and answers its status.
pub fn run(words: Vec<OsString>, console: &mut Console) -> u8 {
    let mut words = words.into_iter();
    let first = words.next().map(|word| word.to_string_lossy().into_owned());
    let rest: Vec<OsString> = words.collect();
    let (name, outcome) = match first.as_deref() {
        None | Some("--help" | "-h") => (None, console.say(HELP).map(|()| DONE)),
        Some("--version" | "-V") => (None, console.say(&version()).map(|()| DONE)),
        Some("help") => (None, help(&rest, console)),
        Some(name) => match COMMANDS.iter().find(|command| command.name == name) {
            Some(command) => (Some(command.name), run_command(command, rest, console)),
            None => (None, Err(unknown(name))),
        },
    };
    outcome.unwrap_or_else(|failure| {
        console.tell(&message(name, &failure));
        failure.status()
    })
}

/// The line of `kit --version`.
fn version() -> String {
    format!("kit {}\n", crate::VERSION)
}

fn run_command(command: &Command, words: Vec<OsString>, console: &mut Console) -> Outcome {
    let asks = |word: &OsString| word == "--help" || word == "-h";
    if words.iter().take_while(|word| *word != "--").any(asks) {
        return console.say(command.help).map(|()| DONE);
    }
    let options = Options::read(words, &command.spec)?;
    (command.run)(&options, console)
}

/// `kit help COMMAND` is `kit COMMAND --help`.
fn help(words: &[OsString], console: &mut Console) -> Outcome {
    let text = match words {
        [] => HELP,
        [word, ..] => {
            let name = word.to_string_lossy();
            let command = COMMANDS.iter().find(|command| command.name == name);
            command.ok_or_else(|| unknown(&name))?.help
        }
    };
    console.say(text).map(|()| DONE)
}

fn unknown(name: &str) -> Failure {
    let hint = names::hint(name, COMMANDS.iter().map(|command| command.name));
    Failure::Usage(format!("{name} is not a command{hint}"))
}

/// The message on standard error: which command, what went wrong, and for a wrong command line where
/// the help is.
fn message(name: Option<&str>, failure: &Failure) -> String {
    let words = failure.words();
    let name = name.map_or("kit".to_string(), |name| format!("kit {name}"));
    match failure {
        Failure::Usage(_) => format!("{name}: {words}\n{name} --help says how it is used\n"),
        Failure::Unheard => String::new(),
        _ => format!("{name}: {words}\n"),
    }
}

const HELP: &str = "\
The bench kit: from a waveform to a verdict that a person can read.

  kit table FILE.txt -o FILE.svt          an assertion as text, to a table
  kit show TABLE|RECORD                   a table or a record, as text
  kit signals WAVEFORM                    the signals of a waveform
  kit record WAVEFORM --signals a=top.ack,.. -o FILE.svw
                                          a waveform, to a record of at most 63 samples
  kit judge TABLE RECORD                  the verdict in words
  kit picture TABLE RECORD -o FILE.svg    the verdict as a picture
  kit batch TABLE DIR|FILES..             the verdict on many records

kit COMMAND --help says more, and kit --version which version it is. A TABLE is a .svt file, or a
text whose name ends in .txt.

The levels: 3 held whatever comes next, 2 held as the record stands, 1 nothing broken and still
waiting, 0 broken. A 3 or a 0 is closed: a longer record never overturns it.

The status is 0 when all is done, 1 where what --require, --tested and --asked ask is not reached,
2 for a wrong command line, 3 where a table or a record is refused, 4 where a file cannot be read,
written or understood, and 5 where the two engines that judge differ, which is a defect.
";
