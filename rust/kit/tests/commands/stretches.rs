//! Which samples of a long waveform are kept: `--to`, `--last`, `--around` and `--windows`.
//!
//! The clock rises at 10, 20, 30 and so on, and just before the rise at 10 k the eight bits of `n` are
//! the number k: the sample at 10 k is k, so that samples are worked out by counting.
mod windows;

use crate::support::waves::{record, samples};
use crate::support::{Folder, Ran};

const HEAD: &str = "$timescale 1ns $end $var wire 1 c clk $end $var wire 8 n n [7:0] $end \
                    $enddefinitions $end\n#0 0c b0 n\n";
const BITS: &str = "a=n[0],b=n[1],c=n[2],d=n[3],e=n[4],f=n[5],g=n[6],h=n[7]";
const ON: [&str; 4] = ["--signals", BITS, "--on", "posedge clk"];

/// The rises with these numbers.
fn rises(numbers: impl IntoIterator<Item = u64>) -> String {
    let rise = |k: u64| format!("#{} 0c b{k:b} n\n#{} 1c\n", 10 * k - 5, 10 * k);
    numbers.into_iter().map(rise).collect()
}

/// Runs `kit record` on a body.
fn run(body: &str, words: &[&str]) -> (Ran, Folder) {
    let folder = Folder::new();
    let path = folder.file("w.vcd", format!("{HEAD}{body}"));
    (record(&folder, &path, words), folder)
}

/// Asks for these samples at the rises.
#[track_caller]
fn expect(body: &str, words: &[&str], expected: impl IntoIterator<Item = u64>) {
    let (said, folder) = run(body, &[&ON, words].concat());
    assert_eq!(said.status, 0, "{}", said.err);
    let expected: Vec<u64> = expected.into_iter().collect();
    assert_eq!(samples(&folder), expected);
}

/// Asks for a failure with a status and these words in its message.
#[track_caller]
fn told(body: &str, words: &[&str], status: u8, part: &str) {
    let (said, folder) = run(body, &[&ON, words].concat());
    assert_eq!(said.status, status, "{}{}", said.out, said.err);
    assert!(said.err.contains(part), "no '{part}' in: {}", said.err);
    assert!(!folder.join("out.svw").exists());
}

#[test]
fn no_sample_after_to() {
    let five = rises(1..=5);
    // at a sample, just before it, between, after the last, at the first
    expect(&five, &["--to", "30"], 1..=3);
    expect(&five, &["--to", "29.999999ns"], 1..=2);
    expect(&five, &["--to", "31ns"], 1..=3);
    expect(&five, &["--to", "1us"], 1..=5);
    expect(&five, &["--to", "10"], [1]);
    expect(&five, &["--from", "20", "--to", "40"], 2..=4);
    expect(&five, &["--from", "20", "--to", "20"], [2]);
    expect(&five, &["--to", "40", "--count", "2"], 1..=2);
    // 63 are no error where the 64th is after it
    expect(&rises(1..=64), &["--to", "639"], 1..=63);
    let none = "w.vcd: there is no posedge of clk up to 9 ns; --count 0 writes";
    told(&five, &["--to", "9"], 4, none);
    let none = "there is no posedge of clk from 51 ns to 60 ns, and the file ends at 50 ns;";
    told(&five, &["--from", "51", "--to", "60"], 4, none);
    let before = "--to: 10 ns is before 20 ns, which --from gives, so no sample is between them";
    told(&five, &["--from", "20", "--to", "10"], 2, before);
}

#[test]
fn reading_stops_after_to() {
    // what follows the first time after it is not read, and what is before that is
    let body = format!("{}#35\nnonsense", rises(1..=3));
    expect(&body, &["--to", "30"], 1..=3);
    expect(&body, &["--to", "34"], 1..=3);
    told(&body, &["--to", "35"], 4, "w.vcd:10: a time such as #10");
    // an unclear edge after it does no harm
    let body = format!("{}#35 xc #40 1c", rises(1..=3));
    expect(&body, &["--to", "39"], 1..=3);
    told(&body, &["--to", "40"], 4, "goes from x to 1 at 40 ns");
}

#[test]
fn other_moments_up_to_a_time() {
    let five = rises(1..=5);
    // n changes at 5, 15, 25, ..
    let changes = |words: &[&str], expected: &[u64]| {
        let (said, folder) = run(&five, &[&["--signals", BITS], words].concat());
        assert_eq!(said.status, 0, "{}", said.err);
        assert_eq!(samples(&folder), expected);
    };
    changes(&["--to", "15"], &[0, 1, 2]);
    changes(&["--to", "14"], &[0, 1]);
    changes(&["--last", "2"], &[4, 5]);
    changes(&["--around", "15", "--count", "3"], &[1, 2, 3]);
    // at 0, 10, 20, 30
    changes(&["--every", "10", "--to", "30"], &[0, 1, 2, 3]);
    changes(&["--every", "10", "--to", "39"], &[0, 1, 2, 3]);
    changes(&["--every", "10", "--last", "2"], &[4, 5]);
    changes(&["--every", "10", "--last", "2", "--to", "35"], &[2, 3]);
    // at 15, 22, 29, 36, 43 and 50
    let from = ["--every", "7", "--from", "15"];
    changes(&[&from[..], &["--last", "3"]].concat(), &[4, 4, 5]);
    // before 36 there are 22 and 29, and at 36 or later 36 and 43
    let around = [&from[..], &["--around", "36", "--count", "4"]].concat();
    changes(&around, &[2, 3, 4, 4]);
    // between times that are far apart samples are not taken one by one
    let far = ["--signals", BITS, "--every", "1fs"];
    let (said, folder) = run(
        "#9000000000000000000",
        &[&far[..], &["--last", "3"]].concat(),
    );
    assert_eq!(said.status, 0, "{}", said.err);
    assert_eq!(samples(&folder), [0; 3]);
    let times = [
        &far[..],
        &["--around", "4000000000000000000", "--count", "3", "--times"],
    ]
    .concat();
    let (said, _) = run("#9000000000000000000", &times);
    let lines = "sample 0  3999999999.999999999999999 s\nsample 1  4000000000 s\n\
                 sample 2  4000000000.000000000000001 s\n";
    assert!(said.out.ends_with(lines), "{}{}", said.out, said.err);
}

#[test]
fn the_last_samples() {
    let five = rises(1..=5);
    expect(&five, &["--last", "1"], [5]);
    expect(&five, &["--last", "4"], 2..=5);
    expect(&five, &["--last", "5"], 1..=5);
    // more than there are
    expect(&five, &["--last", "63"], 1..=5);
    expect(&rises(1..=200), &["--last", "63"], 138..=200);
    expect(&five, &["--last", "2", "--to", "40"], 3..=4);
    expect(&five, &["--last", "9", "--from", "20", "--to", "40"], 2..=4);
    let none = "there is no posedge of clk at or after 51 ns, and the file ends at 50 ns\n";
    told(&five, &["--last", "2", "--from", "51"], 4, none);
    for wrong in ["0", "64", "-1", "many", ""] {
        let part = format!("--last is a number, 1 to 63, not '{wrong}'");
        told(&five, &["--last", wrong], 2, &part);
    }
    // the report is of the samples that are kept
    let (said, _) = run(
        &rises(1..=100),
        &[&ON[..], &["--last", "2", "--times"]].concat(),
    );
    assert!(said.out.contains("out.svw: 2 samples, 990 ns to 1 us\n"));
    assert!(said.out.ends_with("sample 0  990 ns\nsample 1  1 us\n"));
}

/// Five rises, where bit 0 of n is x before the third.
fn unknown() -> String {
    rises(1..=5).replace("b11 n", "b1x n")
}

#[test]
fn an_unknown_value_harms_among_the_last_samples_alone() {
    expect(&unknown(), &["--last", "2"], 4..=5);
    let part = "sample 0, just before 30 ns: a (n[0]) is x; --x 0 or --x 1 says how to read such \
                values, --from or a smaller --last starts later, --to ends sooner";
    told(&unknown(), &["--last", "3"], 4, part);
    told(
        &unknown(),
        &["--last", "4"],
        4,
        "sample 1, just before 30 ns",
    );
    expect(&unknown(), &["--last", "4", "--from", "31"], 4..=5);
    expect(&unknown(), &["--last", "4", "--to", "29"], 1..=2);
    // only values that are kept are counted
    let count = |last: &str| {
        let words = [&ON[..], &["--x", "0", "--last", last]].concat();
        let (said, _) = run(&unknown(), &words);
        said.out.lines().last().unwrap_or_default().to_string()
    };
    assert_eq!(count("2"), "0 unknown values were read as 0");
    assert_eq!(count("3"), "1 unknown value was read as 0");
}

/// Two rises, an edge at 23 that may be one, and three rises more.
fn unclear() -> String {
    let between = "#22 0c #23 xc #24 0c\n";
    let all = [rises(1..=2), between.to_string(), rises(3..=5)];
    all.concat()
}

#[test]
fn an_unclear_edge_harms_while_fewer_samples_follow_than_are_asked_for() {
    // three rises follow it
    for last in ["1", "2", "3"] {
        let number: u64 = last.parse().unwrap();
        expect(&unclear(), &["--last", last], 6 - number..=5);
    }
    let part = "the clock clk goes from 0 to x at 23 ns, so it is not known whether there was a \
                posedge, and fewer samples follow than are asked for; --from or a smaller --last \
                starts later, --to ends sooner, --x 0 or --x 1 says how to read unknown values";
    told(&unclear(), &["--last", "4"], 4, part);
    told(&unclear(), &["--last", "63"], 4, "at 23 ns");
    expect(&unclear(), &["--last", "4", "--from", "25"], 3..=5);
    expect(&unclear(), &["--last", "4", "--to", "22"], 1..=2);
    // it may be the last sample
    let end = format!("{}#55 0c #56 xc", rises(1..=5));
    told(&end, &["--last", "1"], 4, "goes from 0 to x at 56 ns");
    // of many that follow one another the first is told, and all do no harm together
    let many = "#21 0c #22 xc #23 zc #24 xc\n".to_string();
    let many = [rises(1..=2), many, rises(3..=5)].concat();
    expect(&many, &["--last", "3"], 3..=5);
    told(&many, &["--last", "4"], 4, "goes from 0 to x at 22 ns");
    // while nothing is dumped any number of edges may be missing
    let off = [
        rises(1..=2),
        "#22 $dumpoff $end\n#24 $dumpon 0c $end\n".into(),
        rises(3..=5),
    ];
    expect(&off.concat(), &["--last", "3"], 3..=5);
    told(&off.concat(), &["--last", "4"], 4, "not dumped from 22 ns");
}

#[test]
fn the_samples_around_a_time() {
    let nine = rises(1..=9);
    let around = |time, count| ["--around", time, "--count", count];
    // half of 4 before the time, and 2 at it or later
    expect(&nine, &around("50", "4"), 3..=6);
    expect(&nine, &around("51", "4"), 4..=7);
    expect(&nine, &around("49.5ns", "4"), 3..=6);
    // of 5 the half before is 2, of 1 it is none
    expect(&nine, &around("50", "5"), 3..=7);
    expect(&nine, &around("50", "1"), [5]);
    // a side that has fewer is not made up for by the other
    expect(&nine, &around("20", "6"), 1..=4);
    expect(&nine, &around("90", "6"), 6..=9);
    expect(&nine, &around("0", "4"), 1..=2);
    expect(&nine, &around("10", "4"), 1..=2);
    expect(&nine, &around("91", "4"), 8..=9);
    expect(&nine, &around("1ms", "4"), 8..=9);
    // 31 before and 32 from the time on
    expect(&rises(1..=200), &["--around", "1us"], 69..=131);
    expect(&nine, &["--around", "50"], 1..=9);
    // between --from and --to
    let words = [
        "--around", "50", "--count", "6", "--from", "40", "--to", "60",
    ];
    expect(&nine, &words, 4..=6);
    // reading stops with the last
    expect(&format!("{nine}#95 nonsense"), &around("50", "4"), 3..=6);
    told(
        &nine,
        &around("50", "0"),
        2,
        "--count is a number, 1 to 63, not '0'",
    );
    told(
        &nine,
        &["--around", "soon"],
        2,
        "--around: a time such as 120ns",
    );
    told(
        &nine,
        &around("91", "1"),
        4,
        "there is no posedge of clk, and the file ends at 90 ns\n",
    );
}

#[test]
fn unknown_values_around_a_time() {
    let around = |time, count| ["--around", time, "--count", count];
    // x before the third rise, which is kept or not
    expect(&unknown(), &around("50", "2"), 4..=5);
    let part = "sample 0, just before 30 ns: a (n[0]) is x";
    told(&unknown(), &around("50", "4"), 4, part);
    told(
        &unknown(),
        &around("30", "2"),
        4,
        "sample 1, just before 30 ns",
    );
    expect(&unknown(), &around("20", "2"), 1..=2);
    // an unclear edge at 23, with two rises before it and three after
    expect(&unclear(), &around("50", "4"), 3..=5);
    told(
        &unclear(),
        &around("40", "4"),
        4,
        "goes from 0 to x at 23 ns",
    );
    told(
        &unclear(),
        &around("20", "4"),
        4,
        "goes from 0 to x at 23 ns",
    );
    expect(&unclear(), &around("20", "2"), 1..=2);
}

#[test]
fn options_that_do_not_go_together_are_told() {
    let five = rises(1..=5);
    let apart = |words: &[&str], pair: &str, why: &str| {
        let part = format!("kit record: {pair} do not go together, for {why}: give one of them\n");
        told(&five, words, 2, &part);
    };
    let many = "both say how many samples are taken";
    apart(&["--last", "2", "--count", "2"], "--last and --count", many);
    let words = ["--last", "2", "--around", "20"];
    let why = "one takes the last samples, the other those around a time";
    apart(&words, "--last and --around", why);
    let why = "one takes all samples, the other the last";
    apart(&["--windows", "--last", "2"], "--windows and --last", why);
    let why = "one takes all samples, the other those around a time";
    apart(
        &["--windows", "--around", "2"],
        "--windows and --around",
        why,
    );
    told(
        &five,
        &["--overlap", "2"],
        2,
        "--overlap goes with --windows: it is what",
    );
}

#[test]
fn the_message_for_too_many_samples_says_what_can_be_done() {
    let part =
        "more than 63 samples, which is all that a record holds, and the next is at 640 ns; \
                --count 63 takes the first, --last 63 the last, --around T those around a time, \
                --from T and --to T those between two, and --windows makes several records\n";
    told(&rises(1..=64), &[], 4, part);
}

/// A time that is not among the samples may be a slip in its unit.
#[test]
fn a_time_outside_of_all_samples_is_told() {
    let five = rises(1..=5);
    for (around, line) in [
        ("1us", "no sample is at 1 us or later"),
        ("51", "no sample is at 51 ns or later"),
        ("9", "no sample is at 9 ns or before"),
    ] {
        let (said, _) = run(&five, &[&ON[..], &["--around", around]].concat());
        assert_eq!((said.status, said.out.lines().nth(1)), (0, Some(line)));
    }
    for around in ["10", "33", "50"] {
        let (said, _) = run(&five, &[&ON[..], &["--around", around]].concat());
        assert!(!said.out.contains("no sample"), "{}", said.out);
    }
}

/// What is read of the clock decides which samples there are, so it is counted too.
#[test]
fn unknown_values_of_the_clock_are_counted() {
    let body = "#10 b1 n\n#20 xc\n#30 0c b10 n\n#40 zc\n#50 0c\n";
    let (said, folder) = run(body, &[&ON[..], &["--x", "1"]].concat());
    assert_eq!((said.status, samples(&folder)), (0, vec![1, 2]));
    let line = "\n0 unknown values were read as 1, and so 2 values of the clock\n";
    assert!(said.out.ends_with(line), "{}", said.out);
}
