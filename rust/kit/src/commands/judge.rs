//! `kit judge`: the verdict in words.
use super::Command;
use crate::console::Console;
use crate::engine::{Engine, Engines};
use crate::failure::{Outcome, BELOW, DONE, REFUSED};
use crate::files;
use crate::options::{Options, Spec};
use crate::origin::{Naming, Origin, Read};
use crate::refusals;
use crate::required::Required;
use crate::source::{self, Source};
use crate::verdict::{self, Account, Refused, Stopped};
use std::path::Path;

/// The command.
pub const COMMAND: Command = Command {
    name: "judge",
    help: HELP,
    spec: Spec {
        values: &["--names", "--require", "--engine"],
        flags: &["--json", "--tested", "--asked", "--named", "--once"],
    },
    run,
};

fn run(options: &Options, console: &mut Console) -> Outcome {
    let [table, record] = options.files(["TABLE", "RECORD"])?;
    let required = Required::of(options)?;
    let engine = Engine::of(options)?;
    let source = source::table(table, options.value("--names").map(Path::new))?;
    let bytes = files::read(record)?;
    let stopped = match verdict::ready(engine, &source.table, &bytes) {
        Ok((engines, samples)) => {
            let origin = Origin::of((table, &source), (record, &bytes))?;
            match account(engines, required, &source, &origin, &samples) {
                Ok(account) => return judged(&account, &origin, options, console),
                Err(stopped) => stopped,
            }
        }
        Err(stopped) => stopped,
    };
    let refused = match stopped {
        Stopped::Differ(difference) => return Err(difference.failure(&[table, record])),
        Stopped::Refused(refused) => refused,
    };
    console.say(&match refused {
        _ if options.flag("--json") => {
            let files = [&source.read, &Read::of(record, &bytes)];
            verdict::refusal_object(refused, engine, required, files).line()
        }
        Refused::Table(refusal) => {
            let more = refusals::more(&source, refusal);
            verdict::refusal_words(refused, table, &source.table, &more)
        }
        Refused::Record(_) => verdict::refusal_words(refused, record, &bytes, ""),
    })?;
    Ok(REFUSED)
}

/// Says the verdict on a record that was judged.
fn judged(account: &Account, origin: &Origin, options: &Options, console: &mut Console) -> Outcome {
    let required = Required::of(options)?;
    console.say(&match options.flag("--json") {
        true => verdict::object(account, required, origin).line(),
        false => verdict::words(account, required, options.flag("--once")) + &origin.words(),
    })?;
    if required.unsaid(account.judged()) {
        let record = &origin.record.file;
        console.tell(&format!(
            "kit judge: {record} is broken, and no level was required, so the status does not say so: \
             --require 1 makes it 1\n"
        ));
    }
    Ok(match required.reached(account.judged()) {
        true => DONE,
        false => BELOW,
    })
}

/// Judges a record. Where the plain engine judged alone because the fast one refuses, and what is required
/// is read off the fast one's rows, that refusal is the answer.
fn account(
    mut engines: Engines,
    required: Required,
    source: &Source,
    origin: &Origin,
    samples: &[u64],
) -> Result<Account, Stopped> {
    let account = verdict::account(&mut engines, &source.table, &origin.names, samples);
    let mut account = account.map_err(Stopped::by_table)?;
    account.times = origin.times().to_vec();
    account.named = origin.naming == Naming::Agreed;
    match (account.past, account.judged().asked) {
        (Some(refusal), None) if required.asked => Err(Stopped::Refused(Refused::Table(refusal))),
        _ => Ok(account),
    }
}

const HELP: &str = "\
kit judge TABLE RECORD [--names FILE.txt] [--require N] [--tested] [--asked] [--named]
                       [--once] [--engine both|fast|plain] [--json]

Judges a record by an assertion, and says why.

The first line is always the answer in short: `level 1 tested yes`, or `refused 9 at 3`. Then come
in words: what the level means; whether the record put the assertion to the test; of each |->, the
samples from which it was reached and those at which its right side was then asked, or that it was
never asked; what is asked at the first sample only, and how to ask it at every one; the level after
each sample, with samples counted from 0; the sample at which it closed, after which nothing can
change it; and the decisive part, which is the smallest part of the assertion that by itself
explains the level. At the end stand what the verdict is of: the table and the record with their
SHA-256, and where they are known the waveform, where each signal came from and the times of the
samples; whose names the signals have; and the version of the kit.

What is known of a record stands in RECORD.json beside it, which kit record writes, and of a table
in TABLE.json, which kit table writes. Where the two do not mean the same signals, or one of them
was changed since, there is no verdict but a message with both names. A record without such a file
is judged, and it is said that its names are not known.

The levels: 3 held whatever comes next, 2 held as the record stands, 1 nothing broken and still
waiting, 0 broken.

What is said of |-> holds of |=>, #-# and #=# too. The right side is asked at the last sample of
each match of the left side; of |=> and #=# at the sample after it, or under a clock at the next
tick.

Two engines judge, each proved by itself. The fast one rewrites the clocks of the table away, and
refuses it with 13 where that takes more than 120 nodes; the plain one reads the table as it is.
Where derived operators alone are written out to more than 120 nodes both refuse with 13, and each
part is told with what it is written out to.
Both are asked, of every beginning of the record. That they agree is proved; should they differ all
the same, that is a defect of Xistomar, which is told with both answers and status 5. Where the fast
one alone refuses, with 13, the plain one judges alone, and it is said that it did: then there are
no rows to read off which |-> were asked and which part was decisive, and neither is told.

  TABLE             a .svt file, or a text whose name ends in .txt
  RECORD            a .svw file of at most 63 samples
  --names FILE.txt  a text that declares the signals' names, for a .svt. Without it they are those
                    of the table's .json or else of the record's, and where there is none signal 3
                    is s3
  --require N       the level must be N or higher: 0, 1, 2 or 3. Without it a line on standard error
                    says of a broken record that the status does not say so
  --tested          the record must test the assertion: some strong or weak in it must be reached
  --asked           the record must ask every |->: its right side must be asked, from a sample at
                    which the |-> was reached
  --named           the assertion and the record must be known to mean the same signals: both have
                    names, and they agree
  --once            what is asked at the first sample only is meant so, and no word is said of it
  --engine WHICH    both, which is the default; fast, which refuses tables with 13; or plain, which
                    cannot have --asked
  --json            one JSON object on one line instead

The JSON object has every key always, null or empty where there is nothing to say:

  line          the first line, as above
  engine        the engines that judged: both, fast or plain, where plain may also be what both came
                to; of a refusal those that were asked for
  level         0 to 3; name and meaning say it in words
  tested        true or false
  implications  each |->, in the order of the table: {\"node\":11,\"part\":\"..\",\"left\":\"..\",
                \"reached\":[0,1],\"matched\":[1],\"asked\":true}; node is its place in the table, part
                its text and left that of its left side; reached are the samples from which it was
                reached, where the number of samples is the end of the record; matched are those at
                which its right side was then asked, and asked is false where there are none; null
                where the plain engine judged alone and there are any, for it cannot tell
  once          true where something is asked at the first sample only, with --once and without
  assertion     the assertion as text
  signals       the signals that it asks about: [{\"number\":0,\"name\":\"ack\"},..]
  names         whose their names are: agreed, a text's that the record has too; record, the
                record's alone; text, a text's, while those of the record are not known; none
  samples       how many samples the record has
  times         the time of each sample, [\"15 ns\",..]; empty where they are not known
  levels        the level after 0, 1, .. samples: levels[0] is before any sample
  closed        the sample at which the level closed, or null
  decisive      the decisive part: {\"node\":10,\"part\":\"..\",\"from\":1,\"level\":1,\"turned\":false,
                \"closed\":null,\"matched\":null}; node is its place in the table, part its text, from
                the sample from which it was asked and level its own level there; turned is true
                under an odd number of nots, where the assertion's level is 3 minus this one; closed
                is the sample at which it closed; matched is [first,last], the samples that a strong
                or weak part matched; null where the plain engine judged alone
  required      {\"level\":3,\"tested\":false,\"asked\":false,\"named\":false,\"reached\":false}: what was
                required, and whether all of it is reached
  refused       null, or {\"file\":\"table\",\"number\":9,\"node\":3,\"reason\":\"..\"}
  table         {\"file\":\"flush.txt\",\"sha256\":\"..\"}: the table, or its text, as it was read
  record        the same of the record; sha256 is null of a file that is longer than any record
  recorded      null, or what RECORD.json says: {\"waveform\":{\"file\":\"..\",\"sha256\":\"..\"},
                \"signals\":[{\"number\":0,\"name\":\"ack\",\"from\":\"top.ack\"},..],\"options\":[..],
                \"kit\":\"0.2.0\"}, with the words of kit record's command line and its version
  kit           the version of the kit that judged

For a message on standard error (status 2, 4 or 5) there is no object.

Example, which fails a script unless the flush was durable and the record shows it:

  $ kit judge flush.svt run/0001.svw --require 2 --asked

The status is 0 for a record that was judged, 1 where what --require, --tested, --asked and --named
ask is not reached, 2 for a wrong command line, 3 where the table or the record is refused (with 13
too, where --asked is given and only the plain engine judges the table), 4 where a file cannot be
read or understood or the two do not mean the same signals, and 5 where the engines differ.
";
