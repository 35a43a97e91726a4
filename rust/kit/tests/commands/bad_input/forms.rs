//! The command lines that are tried on bad files, and the good files that these are made from.
use crate::support::{example, example_bytes, kit};

/// What a file is taken for.
#[derive(Clone, Copy, Debug, PartialEq, Eq)]
pub enum Kind {
    Table,
    Text,
    Waveform,
    Record,
}

impl Kind {
    /// The name of the bad file.
    pub fn file(self) -> &'static str {
        match self {
            Kind::Table => "bad.svt",
            Kind::Text => "bad.txt",
            Kind::Waveform => "bad.vcd",
            Kind::Record => "bad.svw",
        }
    }
}

/// All of them.
pub const KINDS: [Kind; 4] = [Kind::Table, Kind::Text, Kind::Waveform, Kind::Record];

/// A command line in which one file is bad: IN. OUT is where the result goes, and TABLE and RECORD
/// are good files.
pub type Form = (Kind, &'static [&'static str]);

/// Every command, with each file that it takes bad in its turn.
pub const FORMS: [Form; 24] = [
    (Kind::Text, &["table", "IN", "-o", "OUT"]),
    (Kind::Table, &["show", "IN"]),
    (Kind::Record, &["show", "IN"]),
    (Kind::Text, &["show", "TABLE", "--names", "IN"]),
    (Kind::Text, &["show", "RECORD", "--names", "IN"]),
    (Kind::Waveform, &["signals", "IN"]),
    (Kind::Waveform, &EVERY),
    (Kind::Waveform, &ON),
    (Kind::Table, &["judge", "IN", "RECORD"]),
    (Kind::Text, &["judge", "IN", "RECORD"]),
    (Kind::Record, &["judge", "TABLE", "IN"]),
    (Kind::Table, &["judge", "--engine", "plain", "IN", "RECORD"]),
    (Kind::Table, &["judge", "--json", "IN", "RECORD"]),
    (Kind::Record, &["judge", "--json", "TABLE", "IN"]),
    (Kind::Text, &["judge", "TABLE", "RECORD", "--names", "IN"]),
    (Kind::Table, &["picture", "IN", "RECORD", "-o", "OUT"]),
    (Kind::Text, &["picture", "IN", "RECORD", "-o", "OUT"]),
    (Kind::Record, &["picture", "TABLE", "IN", "-o", "OUT"]),
    (
        Kind::Text,
        &["picture", "TABLE", "RECORD", "--names", "IN", "-o", "OUT"],
    ),
    (Kind::Table, &["batch", "IN", "RECORD", "--list"]),
    (Kind::Text, &["batch", "IN", "RECORD"]),
    (Kind::Record, &["batch", "TABLE", "IN", "--list"]),
    (Kind::Record, &["batch", "--list", "TABLE", "IN", "RECORD"]),
    (
        Kind::Record,
        &["batch", "--list", "--engine=plain", "TABLE", "IN"],
    ),
];

const EVERY: [&str; 8] = [
    "record",
    "IN",
    "--signals",
    "a=top.ack,b=top.strobe",
    "--every",
    "5ns",
    "-o",
    "OUT",
];

const ON: [&str; 8] = [
    "record",
    "IN",
    "--signals",
    "a=top.ack",
    "--on",
    "posedge top.clk",
    "-o",
    "OUT",
];

/// The forms for files of a kind.
pub fn forms(kind: Kind) -> impl Iterator<Item = Form> {
    FORMS.into_iter().filter(move |form| form.0 == kind)
}

/// Those with an output, which stands last after `-o`.
pub fn writing_forms() -> impl Iterator<Item = Form> {
    let writes = |(_, words): &Form| words.ends_with(&["-o", "OUT"]);
    FORMS.into_iter().filter(writes)
}

/// A waveform with two signals and a clock, as a simulator writes it.
pub const WAVEFORM: &str = "\
$date today $end
$timescale 1ns $end
$scope module top $end
$var wire 1 ! ack $end
$var wire 1 \" strobe $end
$var wire 1 # clk $end
$var wire 4 % count [3:0] $end
$upscope $end
$enddefinitions $end
#0
$dumpvars
0!
0\"
0#
b0 %
$end
#5
1!
1#
b101 %
#10
0!
0#
#15
1\"
1#
#20
0#
";

/// The text of an example's table.
pub fn text(table: &str) -> String {
    kit(["show", &example(table)]).out
}

/// Good bytes of a kind.
pub fn good(kind: Kind) -> Vec<u8> {
    match kind {
        Kind::Table => example_bytes("flush.svt"),
        Kind::Text => text("flush.svt").into_bytes(),
        Kind::Waveform => WAVEFORM.as_bytes().to_vec(),
        Kind::Record => example_bytes("flush.svw"),
    }
}
