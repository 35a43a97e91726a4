//! `kit record` on waveforms that simulators and a logic analyser's program wrote: the stored copies
//! in `examples/waves`, and fresh ones in the folder that `XISTOMAR_WAVES` names, which
//! `tools/waveforms` makes.
//!
//! Every expected sample is worked out by hand from the sources `drive.v`, `drive.vhd` and
//! `logic.csv`, whose comments say what each rise of the clock does; none is copied from an answer.
use crate::support::waves::{record, samples};
use crate::support::{example_bytes, examples, kit, Folder};
use std::ffi::OsStr;
use std::fs;
use std::path::PathBuf;

/// The stored copy of a waveform, and the fresh one where there is one.
fn copies(name: &str) -> Vec<PathBuf> {
    let stored = examples().join("waves");
    let fresh = std::env::var_os("XISTOMAR_WAVES").map(PathBuf::from);
    let fresh = fresh.map(|folder| folder.join(name));
    let fresh = fresh.filter(|path| path.exists());
    [stored.join(name)].into_iter().chain(fresh).collect()
}

/// Asks for these samples of every copy.
#[track_caller]
fn expect(name: &str, words: &[&str], expected: &[u64]) {
    for path in copies(name) {
        let folder = Folder::new();
        let said = record(&folder, &path, words);
        assert_eq!(said.status, 0, "{}", said.err);
        assert_eq!(samples(&folder), expected, "{}", path.display());
    }
}

/// Asks for a failure of every copy whose message has all these parts.
#[track_caller]
fn expect_told(name: &str, words: &[&str], parts: &[&str]) {
    for path in copies(name) {
        let said = record(&Folder::new(), &path, words);
        assert_eq!(said.status, 4, "{}{}", said.out, said.err);
        for part in parts {
            assert!(said.err.contains(part), "no '{part}' in {}", said.err);
        }
    }
}

/// The judge's line on the samples of every copy, by the table of `examples/flush.txt`.
#[track_caller]
fn expect_line(name: &str, words: &[&str], line: &str) {
    let table = example_bytes("flush.svt");
    for path in copies(name) {
        let folder = Folder::new();
        assert_eq!(record(&folder, &path, words).status, 0);
        let judgement = xistomar::Judge::new().judge(&table, &samples(&folder));
        assert_eq!(judgement.unwrap().to_string(), line);
    }
}

/// ack is 1, drop is 2, strobe is 4, as in `examples/flush.txt`. The dump is on again from 11 ns, and
/// the first rise after it is at 15 ns.
const FLUSH: [&str; 6] = [
    "--signals",
    "ack=bench.ack,drop=bench.drop,strobe=bench.strobe",
    "--on",
    "posedge bench.clk",
    "--from",
    "12ns",
];

#[test]
fn iverilog_a_flush_that_is_durable() {
    let name = "drive-iverilog.vcd";
    // ack rises at 35 and falls at 45, strobe at 65 and 75, drop rises at 82: just before the rises
    // at 15, 25, .. 105 the drive shows
    expect(name, &FLUSH, &[0, 0, 0, 1, 0, 0, 4, 2, 2, 2]);
    // and just after them
    let settled = [&FLUSH[..], &["--settled"]].concat();
    expect(name, &settled, &[0, 0, 1, 0, 0, 4, 0, 2, 2, 2]);
    expect_line(name, &FLUSH, "level 2 tested yes");
    // acknowledged, and the record ends at 55 before the strobe
    let open = [&FLUSH[..], &["--count", "5"]].concat();
    expect(name, &open, &[0, 0, 0, 1, 0]);
    expect_line(name, &open, "level 1 tested yes");
}

#[test]
fn iverilog_a_flush_that_is_lost() {
    // the supply is cut at 52, before the strobe that would have come at 65
    for name in ["drive-lost.vcd", "drive-lost.vcd.gz"] {
        expect(name, &FLUSH, &[0, 0, 0, 1, 2, 2, 2, 2, 2, 2]);
        expect_line(name, &FLUSH, "level 0 tested yes");
    }
}

#[test]
fn iverilog_bits_of_vectors() {
    // media before the rises from 15 on: 81 81 81 81 82 83 84 84, then 81 from the rise at 85 on
    let bit = |path: &str, expected: &[u64]| {
        let signals = format!("a={path}");
        let words = [
            "--signals",
            &signals,
            "--on",
            "posedge bench.clk",
            "--from",
            "11ns",
        ];
        expect("drive-iverilog.vcd", &words, expected);
    };
    let (low, third) = (
        [1, 1, 1, 1, 0, 1, 0, 0, 1, 1],
        [0, 0, 0, 0, 0, 0, 1, 1, 0, 0],
    );
    bit("media[0]", &low);
    bit("bench.dut.media[2]", &third);
    bit("media[7]", &[1; 10]);
    // the same bits from the left
    bit("mirror[7]", &low);
    bit("mirror[5]", &third);
    bit("mirror[0]", &[1; 10]);
    // left before the rises: 0 0 0 3 2 1 0 0 0 0
    bit("left[0]", &[0, 0, 0, 1, 0, 1, 0, 0, 0, 0]);
    bit("left[1]", &[0, 0, 0, 1, 1, 0, 0, 0, 0, 0]);
    // cut is 82, which is 0101_0010
    bit("cut[6]", &[1; 10]);
    bit("cut[5]", &[0; 10]);
}

#[test]
fn iverilog_unknown_values() {
    let name = "drive-iverilog.vcd";
    // before the first rise nothing is known of ack
    let words = ["--signals", "ack=bench.ack", "--every", "10ns"];
    expect_told(
        name,
        &words,
        &["ack (bench.ack) is x", "at 0 ps", "sample 0"],
    );
    // the bus floats while no bytes are left: it is driven before the rises at 45, 55 and 65
    let bus = [
        "--signals",
        "low=bench.bus[0]",
        "--on",
        "posedge bench.clk",
        "--from",
        "12ns",
    ];
    expect_told(
        name,
        &bus,
        &["low (bench.bus[0]) is z", "just before 15 ns", "sample 0"],
    );
    expect(
        name,
        &[&bus[..], &["--x", "0"]].concat(),
        &[0, 0, 0, 1, 0, 1, 0, 0, 0, 0],
    );
    expect(
        name,
        &[&bus[..], &["--x", "1"]].concat(),
        &[1, 1, 1, 1, 0, 1, 1, 1, 1, 1],
    );
    // nothing is dumped from 1 ns to 11 ns, the rise at 5 ns among it
    let clock = ["--signals", "drop=bench.drop", "--on", "posedge bench.clk"];
    expect_told(name, &clock, &["bench.clk", "1 ns", "$dumpoff"]);
    expect_told(name, &["--signals", "v=bench.volts"], &["no bits"]);
}

#[test]
fn iverilog_other_moments() {
    // from 11 ns on: reset falls at 22, flush rises at 32 and falls at 42
    let words = [
        "--signals",
        "reset=bench.dut.reset,flush=bench.dut.flush",
        "--from",
        "11ns",
    ];
    expect("drive-iverilog.vcd", &words, &[1, 0, 2, 0]);
    // 11, 31, 51, 71 and 91 ns; 111 ns is after the end at 108 ns. ack is 1 from 35 to 45 and strobe
    // from 65 to 75, drop from 82 on
    let words = [&FLUSH[..2], &["--every", "20ns", "--from", "11ns"]].concat();
    expect("drive-iverilog.vcd", &words, &[0, 0, 0, 4, 2]);
}

#[test]
fn ghdl_a_flush_that_is_durable() {
    // before the rises at 12, 20, .. 76: ack is 1 before 28 alone, strobe before 52, drop from 62 on
    let words = [&FLUSH[..4], &["--from", "5ns"]].concat();
    expect("drive-ghdl.vcd", &words, &[0, 0, 1, 0, 0, 4, 0, 2, 2]);
    expect_line("drive-ghdl.vcd", &words, "level 2 tested yes");
    // before the rise at 4 nothing is assigned
    expect_told(
        "drive-ghdl.vcd",
        &FLUSH[..4],
        &["ack (bench.ack) is U", "just before 4 ns"],
    );
}

#[test]
fn ghdl_bits_and_levels() {
    let bit = |path: &str, expected: &[u64]| {
        let signals = format!("a={path}");
        let words = [
            "--signals",
            &signals,
            "--on",
            "posedge bench.clk",
            "--from",
            "5ns",
        ];
        expect("drive-ghdl.vcd", &words, expected);
    };
    // media before the rises from 12 on: 81 81 81 82 83 84 84 84, then 81 from the rise at 68 on
    bit("media[0]", &[1, 1, 1, 0, 1, 0, 0, 0, 1]);
    bit("bench.mirror[7]", &[1, 1, 1, 0, 1, 0, 0, 0, 1]);
    bit("bench.mirror[5]", &[0, 0, 0, 0, 0, 1, 1, 1, 0]);
    // an integer, left before the rises: 0 0 3 2 1 0 0 0 0
    bit("left[1]", &[0, 0, 1, 1, 0, 0, 0, 0, 0]);
    // "UX01ZWLH-" from 8 down to 0; supply is H, and L from 62 on
    bit("every[6]", &[0; 9]);
    bit("every[5]", &[1; 9]);
    bit("every[2]", &[0; 9]);
    bit("every[1]", &[1; 9]);
    bit("supply", &[1, 1, 1, 1, 1, 1, 1, 0, 0]);
    for (index, digit) in [(8, "U"), (7, "X"), (4, "Z"), (3, "W"), (0, "-")] {
        let signals = format!("a=every[{index}]");
        let part = format!("(bench.every[{index}]) is {digit};");
        expect_told("drive-ghdl.vcd", &["--signals", &signals], &[&part]);
    }
}

/// ack 1, drop 2, strobe 4, busy 8.
const LOGIC: &str = "ack=ack,drop=drop,strobe=strobe,busy=busy";

#[test]
fn sigrok_a_capture() {
    capture("logic-sigrok.vcd");
    capture("logic.sr");
}

fn capture(name: &str) {
    // the 14 lines of logic.csv, one for each 500 ns; the time 7 us ends the file, and nothing was
    // captured at it
    let every = ["--signals", LOGIC, "--every", "500ns"];
    let lines = [0, 0, 9, 9, 8, 8, 12, 0, 0, 9, 8, 10, 2, 2];
    expect(name, &every, &lines);
    // the lines that differ from the one before
    let changes = [0, 9, 8, 12, 0, 9, 8, 10, 2];
    expect(name, &["--signals", LOGIC], &changes);
    // the first flush is durable, the second is not: the supply drops 1 us after it
    expect_line(
        name,
        &[&every[..], &["--count", "9"]].concat(),
        "level 2 tested yes",
    );
    expect_line(name, &every, "level 0 tested yes");
    // busy as the clock: it rises at 1 us and 4.5 us, and falls at 3.5 us and 6 us
    let words = ["--signals", LOGIC, "--on", "negedge busy"];
    expect(name, &words, &[12, 10]);
}

#[test]
fn what_the_files_have_is_listed() {
    let cases = [
        (
            "drive-iverilog.vcd",
            "units of 100 ps",
            "bench.dut.clk     1        wire     same as bench.clk",
        ),
        (
            "drive-iverilog.vcd",
            "19 variables",
            "bench.dut.mirror  [0:7]    wire",
        ),
        (
            "drive-ghdl.vcd",
            "22 variables; times are in units of 1 fs",
            "bench.volts       -        real",
        ),
        (
            "logic-sigrok.vcd",
            "4 variables; times are in units of 100 ns",
            "libsigrok.busy    1        wire",
        ),
        (
            "logic.sr",
            "4 variables; times are in units of 100 ns",
            "libsigrok.busy    1        wire",
        ),
    ];
    for (name, first, line) in cases {
        for path in copies(name) {
            let said = kit([OsStr::new("signals"), path.as_os_str()]);
            assert_eq!(said.status, 0);
            let head = said.out.lines().next().unwrap();
            assert!(head.contains(first), "{head}");
            assert!(said.out.lines().any(|found| found == line), "{}", said.out);
        }
    }
}

#[test]
fn a_torn_file_gives_a_record_or_a_message() {
    let words = [&FLUSH[..], &["--x", "0"]].concat();
    let sigrok = ["--signals", LOGIC];
    let cases = [
        ("drive-iverilog.vcd", &words[..]),
        ("drive-ghdl.vcd", &words),
        ("logic-sigrok.vcd", &sigrok),
    ];
    for (name, words) in cases {
        let whole = fs::read(&copies(name)[0]).unwrap();
        let folder = Folder::new();
        let torn = folder.file("torn.vcd", &whole);
        let mut statuses = [0; 5];
        for length in (0..=whole.len()).rev() {
            let file = fs::File::options().write(true).open(&torn).unwrap();
            file.set_len(length as u64).unwrap();
            let _ = fs::remove_file(folder.join("out.svw"));
            let said = record(&folder, &torn, words);
            assert!(matches!(said.status, 0 | 4), "{length} bytes: {}", said.err);
            assert_eq!(said.status == 4, !said.err.is_empty());
            statuses[usize::from(said.status)] += 1;
            let said = kit(["signals", &torn]);
            assert!(matches!(said.status, 0 | 4));
        }
        assert!(statuses[0] > 10 && statuses[4] > 100, "{statuses:?}");
    }
}
