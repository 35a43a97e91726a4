//! A waveform that is far larger than the memory that the kit may take.
use crate::support::Folder;
use std::io::{BufWriter, Write};
use std::process::{Command, Stdio};

/// The bytes of the waveform, about, and the memory that the kit may take: 64 MiB.
const BYTES: usize = 100 << 20;
const KIBIBYTES: usize = 64 << 10;

/// 1,000 rises of a clock, a byte on a bus and a number with each.
fn block(first: u64) -> String {
    let rise = |number: u64| {
        let (time, byte) = (number * 10, number % 256);
        format!(
            "#{time}\n1!\nb{byte:08b} \"\nr{number}.5 #\n#{}\n0!\n",
            time + 5
        )
    };
    (first..first + 1000).map(rise).collect()
}

#[test]
fn a_large_file_is_read_in_little_memory() {
    let limited = format!("ulimit -v {KIBIBYTES} && exec \"$0\" \"$@\"");
    let folder = Folder::new();
    let record = folder.path("stream.svw");
    let mut command = Command::new("sh");
    command.args(["-c", &limited, env!("CARGO_BIN_EXE_kit")]);
    command.args(["record", "/dev/stdin", "--signals", "low=v[0],high=v[7]"]);
    command.args(["--on", "posedge clk", "--from", "200000000", "-o"]);
    command
        .arg(&record)
        .stdin(Stdio::piped())
        .stdout(Stdio::null());
    let mut kit = command.spawn().unwrap();
    let mut pipe = BufWriter::new(kit.stdin.take().unwrap());
    let head = "$var wire 1 ! clk $end $var reg 8 \" v [7:0] $end $var real 64 # n $end $enddefinitions $end\n0! b0 \" ";
    pipe.write_all(head.as_bytes()).unwrap();
    let (mut written, mut number) = (0, 0);
    while written < BYTES {
        let block = block(number);
        written += block.len();
        number += 1000;
        pipe.write_all(block.as_bytes()).unwrap();
    }
    // then five rises that are sampled, and before them the bus is 0, 1, 128, 129 and 0
    assert!(number * 10 < 199_999_999);
    pipe.write_all(b"#199999999 b0 \"\n").unwrap();
    for (place, byte) in [(0u64, 1u8), (1, 128), (2, 129), (3, 0), (4, 0)] {
        let time = 200_000_000 + place * 10;
        writeln!(pipe, "#{time} 1! b{byte:b} \" #{} 0!", time + 5).unwrap();
    }
    drop(pipe);
    assert!(kit.wait().unwrap().success());
    let samples = xistomar::samples(&std::fs::read(&record).unwrap()).unwrap();
    assert_eq!(samples, [0, 1, 2, 3, 0]);
}
