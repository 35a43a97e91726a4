//! `kit record`: a waveform to a record, or to records of windows that overlap.
mod chosen;
mod outputs;
mod report;
mod request;
mod written;

use super::Command;
use crate::beside::Identity;
use crate::console::Console;
use crate::failure::{Outcome, DONE};
use crate::options::{Options, Spec};
use crate::output::{Whole, FORCE};
use crate::vcd::{self, Changes, Keep, Plan, Run, Taken};
use outputs::outputs;
use report::{report, times, windows_report, windows_times};
use request::Request;
use std::path::{Path, PathBuf};

/// The command.
pub const COMMAND: Command = Command {
    name: "record",
    help: HELP,
    spec: Spec {
        values: &[
            "--signals",
            "--on",
            "--every",
            "--from",
            "--to",
            "--count",
            "--last",
            "--around",
            "--overlap",
            "--x",
            "--names",
            "-o",
        ],
        flags: &["--windows", "--settled", "--times", FORCE],
    },
    run,
};

const HELP: &str = "\
kit record WAVEFORM --signals NAME=PATH,.. [--on \"posedge CLOCK\" | --every TIME]
           [--from TIME] [--to TIME]
           [--count N | --last N | --around TIME [--count N] | --windows [--count N] [--overlap M]]
           [--x 0|1] [--settled] [--names FILE.txt] [--times] -o FILE.svw
           [--force]

Takes samples of the chosen signals from a waveform and writes them as a record, which holds at
most 63. kit signals WAVEFORM lists what can be chosen. Without --on and --every there is a sample
at each time at which a chosen signal changes, beginning with the first values. Values that stand in
the file before its first time are of time 0.

A WAVEFORM is a VCD, a gzip file with a VCD in it, a session file of sigrok (.sr), or an FST of
GTKWave, which needs the command fst2vcd; - is standard input. The first bytes tell which it is.

  --signals NAME=PATH,..  The signals. PATH is a full path such as top.dut.ack, or its end where
                          only one variable ends so; [3] after it chooses a bit of a vector. The
                          first is signal 0 of the record, the next 1, and so on; others are 0.
                          NAME=0 and NAME=1 are signals that are 0 or 1 in every sample.
  --names FILE.txt        The signals get the numbers that this text declares for their names. All
                          that it declares must be chosen.
  --on \"posedge CLOCK\"    A sample at each edge of CLOCK, a NAME or a PATH and no constant:
                          posedge, negedge or edge. It has the values just before the edge's time.
                          What comes and goes within one time is no edge, and the clock's first
                          value is none. A clock that goes from or to an unknown value such that
                          it may be an edge, or is not dumped for a while, is an error, but not
                          before --from, nor before samples that are not kept.
  --settled               With --on: the values after all changes of the edge's time.
  --every TIME            A sample at --from (or the first time in the file), one TIME later, and
                          so on, up to the last time in the file, with the changes of that time.
                          A last time without a value only ends the waveform: no sample there.
  --from TIME             No samples before TIME. A TIME is 120ns, 1.5us (s, ms, us, ns, ps, fs),
                          or a plain number of the file's own ticks.
  --to TIME               No samples after TIME; one at TIME is taken. Reading stops there.
  --count N               At most N samples, 0 to 63; reading stops there. Without it, more than 63
                          samples are an error. Only --count 0 writes a record without samples.
  --last N                The last N samples, 1 to 63, of those between --from and --to.
  --around TIME           The samples around TIME: of N, which is --count or 63, at most half,
                          rounded down, before TIME and the rest at TIME or later; of 63, 31 and
                          32. Where one side has fewer, fewer are taken.
  --windows               All samples, in records of N each (--count or 63) that overlap, so that
                          each stretch of up to M + 1 samples is whole in one of them. Each begins
                          N - M samples after the one before, the last ends with the last sample,
                          and there are at most 10,000. FILE.svw gives their names: the record
                          FILE-0015ns.svw has its first sample at 15 ns. Nothing is written unless
                          all can be made.
  --overlap M             With --windows: 0 to N - 1. Without it, half of N, rounded down: 31 of 63.
  --x 0, --x 1            Reads every unknown value (x, z, U, .., not dumped) as 0 or as 1, the
                          clock's too. Without it, an unknown value in a sample that is kept is an
                          error.
  --times                 Adds a line for each sample with its time, to find it in a wave viewer;
                          with --windows a line for each record.
  -o FILE.svw             The record. Beside it FILE.svw.json is written, which says what its
                          signals are called and where they came from, the time of each sample,
                          and the SHA-256 of the record and of the waveform. Commands that read the
                          record look for it. A record that is there already is written over only
                          where kit record wrote it and it was not changed since.
  --force                 -o may have any ending, and writes over any file but an input.

A record that begins inside a run knows nothing of what was before: before sample 0 all signals
count as 0, so rose(a) holds at sample 0 where a is 1.

Example:

  $ kit record examples/waves/drive-iverilog.vcd --on \"posedge bench.clk\" --from 12ns \\
        --signals ack=bench.ack,drop=bench.drop,strobe=bench.strobe -o flush.svw
  flush.svw: 10 samples, 15 ns to 105 ns
  signal 0  ack     bench.ack
  signal 1  drop    bench.drop
  signal 2  strobe  bench.strobe

The status is 0 when the record is written, 2 for a wrong command line, and 4 where a file cannot be
read, written or understood, or does not have the samples. Only with status 0 is anything written,
but where standard output cannot take the answer: that is 4, and the record is there.
";

fn run(options: &Options, console: &mut Console) -> Outcome {
    let request = Request::of(options)?;
    if !options.flag("--windows") {
        request.may_write(&request.output)?;
    }
    let waveform = &request.waveform;
    let mut opened = vcd::open(waveform)?;
    let plan = match request.plan(options, &opened.header) {
        Ok(plan) => plan,
        Err(failure) => return Err(opened.blamed(failure)),
    };
    let run = match vcd::take(&plan, &mut Changes::of(&opened.header, &mut opened.tokens)) {
        Ok(run) => run,
        Err(wrong) => return Err(opened.blamed(wrong.of(waveform))),
    };
    let identity = Identity {
        file: vcd::shown(Path::new(waveform.file_name().unwrap_or_default())),
        sha256: opened.digest()?,
    };
    let records = run.records(plan.keep);
    let outputs = outputs(&request.output, &plan, &records)?;
    let mut whole = Whole::new();
    for (output, taken) in outputs.iter().zip(&records) {
        request.may_write(output)?;
        let both = written::files(output, (&plan, taken), &identity, options.words())?;
        whole.write(&both)?;
    }
    // all are made before the first is in its place
    whole.place()?;
    say(&outputs, &plan, &run, &records, options, console)
}

/// Says what was recorded.
fn say(
    outputs: &[PathBuf],
    plan: &Plan,
    run: &Run,
    records: &[Taken],
    options: &Options,
    console: &mut Console,
) -> Outcome {
    let (said, listed) = match (plan.keep, outputs, records) {
        (Keep::Windows(windows), ..) => (
            windows_report(outputs, plan, windows, run),
            windows_times(outputs, plan, records),
        ),
        (_, [output, ..], [taken, ..]) => (report(output, plan, run, taken), times(plan, taken)),
        _ => (String::new(), String::new()),
    };
    console.say(&said)?;
    if let (Keep::Windows(_), Some(words)) = (plan.keep, outputs::older(outputs)) {
        console.tell(&format!("kit record: warning: {words}\n"));
    }
    if options.flag("--times") {
        console.say(&listed)?;
    }
    Ok(DONE)
}
