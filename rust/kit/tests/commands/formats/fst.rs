//! An FST, with a stand-in for `fst2vcd`, without the command, and with the real one where it is there.
use super::SMALL;
use crate::support::{example, kit, Folder};
use std::path::{Path, PathBuf};
use std::process::{Command, Output};

/// Runs the kit as a program on the stored FST, with these programs and settings.
fn run(path: &str, words: &[&str], settings: &[(&str, &str)]) -> Output {
    let mut command = Command::new(env!("CARGO_BIN_EXE_kit"));
    command.args(words).env("PATH", path);
    command.envs(settings.iter().copied());
    command.output().unwrap()
}

/// The folder of the stand-in, and those of `sh` and `cat`.
fn fake() -> String {
    let folder = Path::new(env!("CARGO_MANIFEST_DIR")).join("tests/fake");
    format!("{}:/usr/bin:/bin", folder.display())
}

fn text(bytes: &[u8]) -> &str {
    std::str::from_utf8(bytes).unwrap()
}

const SIGNALS: &str =
    "2 variables; times are in units of 1 ns\na  1        wire\nb  1        wire\n";

#[test]
fn fst2vcd_gives_the_text() {
    let folder = Folder::new();
    let vcd = folder.file("small.vcd", SMALL);
    let (wave, out) = (example("waves/drive-lost.fst"), folder.path("out.svw"));
    let words = ["record", &wave, "--signals", "a=a,b=b", "-o", &out];
    let said = run(&fake(), &words, &[("FAKE_VCD", &vcd)]);
    assert!(said.status.success(), "{}", text(&said.stderr));
    let bytes = std::fs::read(&out).unwrap();
    assert_eq!(xistomar::samples(&bytes).unwrap(), [1, 2, 3]);
    // what it says does not matter where it does not fail
    let settings = [("FAKE_VCD", vcd.as_str()), ("FAKE_SAYS", "hello")];
    let said = run(&fake(), &["signals", &wave], &settings);
    assert_eq!((text(&said.stdout), text(&said.stderr)), (SIGNALS, ""));
}

#[test]
fn a_failure_of_fst2vcd_is_told_with_its_words() {
    let folder = Folder::new();
    let vcd = folder.file("small.vcd", SMALL);
    let (wave, out) = (example("waves/drive-lost.fst"), folder.path("out.svw"));
    let words = ["record", &wave, "--signals", "a=a,b=b", "-o", &out];
    let says = "Could not open,\\n  exiting. \\033";
    let settings = [
        ("FAKE_VCD", vcd.as_str()),
        ("FAKE_SAYS", says),
        ("FAKE_STATUS", "3"),
    ];
    let said = run(&fake(), &words, &settings);
    let failed = "this is an FST, and fst2vcd, which reads it, failed (exit status: 3)";
    let expected = format!("kit record: {wave}: {failed}: Could not open, exiting. \u{fffd}\n");
    assert_eq!(
        (said.status.code(), text(&said.stderr)),
        (Some(4), expected.as_str())
    );
    assert!(!Path::new(&out).exists());
    // also where it says and gives nothing
    for vcd in [vcd.as_str(), "/dev/null"] {
        let settings = [("FAKE_VCD", vcd), ("FAKE_STATUS", "3")];
        let said = run(&fake(), &words, &settings);
        let expected = format!("kit record: {wave}: {failed}\n");
        assert_eq!(text(&said.stderr), expected);
    }
}

#[test]
fn fst2vcd_is_ended_where_the_rest_is_not_needed() {
    let folder = Folder::new();
    let vcd = folder.file("small.vcd", SMALL);
    let wave = example("waves/drive-lost.fst");
    // the text never ends
    let endless = format!("{vcd}\n/dev/zero");
    let number = folder.path("number");
    let settings = [("FAKE_VCD", endless.as_str()), ("FAKE_NUMBER", &number)];
    let gone = || {
        let number = std::fs::read_to_string(&number).unwrap();
        assert!(!Path::new("/proc").join(number.trim()).exists(), "{number}");
    };
    let said = run(&fake(), &["signals", &wave], &settings);
    assert_eq!((said.status.code(), text(&said.stdout)), (Some(0), SIGNALS));
    gone();
    let out = folder.path("out.svw");
    let words = [
        "record",
        &wave,
        "--signals",
        "a=a",
        "--count",
        "2",
        "-o",
        &out,
    ];
    let said = run(&fake(), &words, &settings);
    assert!(said.status.success(), "{}", text(&said.stderr));
    gone();
}

#[test]
fn a_file_that_is_changed_while_it_is_read_is_told() {
    let folder = Folder::new();
    let vcd = folder.file("small.vcd", SMALL);
    let whole = std::fs::read(example("waves/drive-lost.fst")).unwrap();
    let (wave, out) = (folder.file("w.fst", whole), folder.path("out.svw"));
    let words = ["record", &wave, "--signals", "a=a,b=b", "-o", &out];
    let settings = [("FAKE_VCD", vcd.as_str()), ("FAKE_MORE", "more")];
    let said = run(&fake(), &words, &settings);
    let expected = format!(
        "kit record: {wave}: this is an FST, and it was changed while it was read: record it when it \
         is whole\n"
    );
    assert_eq!(
        (said.status.code(), text(&said.stderr)),
        (Some(4), expected.as_str())
    );
    assert!(!Path::new(&out).exists());
}

#[test]
fn without_fst2vcd_it_is_said_what_is_missing() {
    let folder = Folder::new();
    let wave = example("waves/drive-lost.fst");
    let said = run(&folder.path("."), &["signals", &wave], &[]);
    let expected = format!(
        "kit signals: {wave}: this is an FST, which is read by fst2vcd of GTKWave, and that command \
         is not there: install GTKWave, or write a VCD\n"
    );
    assert_eq!(
        (said.status.code(), text(&said.stderr)),
        (Some(4), expected.as_str())
    );
    assert_eq!(text(&said.stdout), "");
}

#[test]
fn a_torn_fst_is_told_before_anything_is_run() {
    let folder = Folder::new();
    let whole = std::fs::read(example("waves/drive-lost.fst")).unwrap();
    let told = |count: usize, words: &str| {
        let path = folder.file("torn.fst", &whole[..count]);
        let said = kit(["signals", &path]);
        let expected = format!("kit signals: {path}: this is an FST, and it ends early{words}\n");
        assert_eq!((said.status, said.err), (4, expected));
    };
    // the blocks begin at 0, 330, 622, 660 and 674
    let last = " or is damaged: its last block is not there as a whole";
    told(329, last);
    told(700, last);
    let names = ": the names of its variables, which are written last, are missing";
    told(330, names);
    told(674, names);
}

/// ack 1, drop 2, strobe 4, as `waveforms.rs` has them of `drive-lost.vcd`.
#[test]
fn the_real_fst2vcd_gives_the_samples_of_the_vcd() {
    let path = std::env::var_os("PATH").unwrap_or_default();
    let there = |folder: PathBuf| folder.join("fst2vcd").exists();
    if !std::env::split_paths(&path).any(there) {
        eprintln!("fst2vcd is not there");
        return;
    }
    let folder = Folder::new();
    let (wave, out) = (example("waves/drive-lost.fst"), folder.path("out.svw"));
    let signals = "ack=bench.ack,drop=bench.drop,strobe=bench.strobe";
    let words = [
        "record",
        &wave,
        "--signals",
        signals,
        "--on",
        "posedge clk",
        "--from",
        "12ns",
    ];
    let said = kit([&words[..], &["-o", &out]].concat());
    assert_eq!(said.status, 0, "{}", said.err);
    let bytes = std::fs::read(&out).unwrap();
    assert_eq!(
        xistomar::samples(&bytes).unwrap(),
        [0, 0, 0, 1, 2, 2, 2, 2, 2, 2]
    );
}
