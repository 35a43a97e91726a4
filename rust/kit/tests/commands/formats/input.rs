//! A waveform from standard input.
use super::{gzip, SMALL};
use crate::support::{example_bytes, Folder};
use std::io::Write;
use std::process::{Command, Output, Stdio};

/// Runs the kit as a program with these bytes for its standard input.
fn run(words: &[&str], input: &[u8]) -> Output {
    let mut command = Command::new(env!("CARGO_BIN_EXE_kit"));
    command.args(words).stdin(Stdio::piped());
    command.stdout(Stdio::piped()).stderr(Stdio::piped());
    let mut kit = command.spawn().unwrap();
    // the kit may end before it has read all
    let _ = kit.stdin.take().unwrap().write_all(input);
    kit.wait_with_output().unwrap()
}

fn text(bytes: &[u8]) -> &str {
    std::str::from_utf8(bytes).unwrap()
}

#[track_caller]
fn expect(input: &[u8], words: &[&str], samples: &[u64]) {
    let folder = Folder::new();
    let out = folder.path("out.svw");
    let said = run(&[&["record", "-", "-o", &out], words].concat(), input);
    assert!(said.status.success(), "{}", text(&said.stderr));
    let bytes = std::fs::read(&out).unwrap();
    assert_eq!(xistomar::samples(&bytes).unwrap(), samples);
}

#[test]
fn a_vcd_a_gzip_file_and_a_session() {
    let ab = ["--signals", "a=a,b=b"];
    expect(SMALL.as_bytes(), &ab, &[1, 2, 3]);
    expect(&gzip(SMALL.as_bytes()), &ab, &[1, 2, 3]);
    let logic = ["--signals", "ack=ack,drop=drop,strobe=strobe,busy=busy"];
    let samples = [0, 9, 8, 12, 0, 9, 8, 10, 2];
    expect(&example_bytes("waves/logic.sr"), &logic, &samples);
    let said = run(&["signals", "-"], &example_bytes("waves/logic.sr"));
    assert!(text(&said.stdout).starts_with("4 variables; times are in units of 100 ns\n"));
}

#[test]
fn messages_call_it_standard_input() {
    let told = |input: &[u8], words: &str| {
        let said = run(&["signals", "-"], input);
        let expected = format!("kit signals: standard input{words}\n");
        assert_eq!(
            (said.status.code(), text(&said.stderr)),
            (Some(4), expected.as_str())
        );
    };
    told(b"", ": this is an empty file, and no waveform");
    told(
        b"\n$var wire 1 ! $end",
        ":2: $var needs a name before its $end",
    );
    told(
        &example_bytes("waves/drive-lost.fst"),
        ": this is an FST, which is read by fst2vcd of GTKWave, and that command needs a file: put it \
         in a file, or write a VCD",
    );
}
