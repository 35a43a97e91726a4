//! `kit record` and `kit signals` on small waveforms written by hand. What each sample must be is
//! worked out from the text of the waveform beside it: a is signal 0, b is signal 1.
use crate::support::waves::{record, samples};
use crate::support::{kit, Folder, Ran};

/// Ten lines: the body begins on line 11.
const HEAD: &str = "$date today $end
$timescale 1ns $end
$scope module top $end
$var wire 1 c clk $end
$var wire 1 a a $end
$var reg 1 b b $end
$var wire 8 v data [7:0] $end
$var wire 8 w up[0:7] $end $var real 64 r volts $end
$scope module dut $end $var wire 1 a a_in $end $var wire 1 d b $end $upscope $end
$upscope $end $enddefinitions $end
";

const AB: &str = "a=top.a,b=top.b";

/// Runs `kit record` on a whole waveform.
fn run(text: &str, words: &[&str]) -> (Ran, Option<Vec<u64>>) {
    let folder = Folder::new();
    let path = folder.file("w.vcd", text);
    let said = record(&folder, &path, words);
    let taken = (said.status == 0).then(|| samples(&folder));
    assert_eq!(taken.is_some(), folder.join("out.svw").exists());
    (said, taken)
}

/// The samples of a and b in a body.
#[track_caller]
fn taken(body: &str, words: &[&str]) -> Vec<u64> {
    taken_of(AB, body, words)
}

/// The samples of other signals in a body.
#[track_caller]
fn taken_of(signals: &str, body: &str, words: &[&str]) -> Vec<u64> {
    let words = [&["--signals", signals], words].concat();
    let (said, taken) = run(&format!("{HEAD}{body}"), &words);
    taken.unwrap_or_else(|| panic!("{}", said.err))
}

/// Asks for a failure with a status whose message has all these words.
#[track_caller]
fn told(signals: &str, body: &str, words: &[&str], status: u8, parts: &[&str]) {
    let words = [&["--signals", signals], words].concat();
    let (said, _) = run(&format!("{HEAD}{body}"), &words);
    assert_eq!(said.status, status, "{}{}", said.out, said.err);
    for part in parts {
        assert!(said.err.contains(part), "no '{part}' in: {}", said.err);
    }
}

const CLOCKED: &str = "#0 0c 0a 0b\n#5 1c 1a\n#10 0c\n#15 1c 0a 1b\n#20 0c\n#25 1c\n";

#[test]
fn samples_at_edges_have_the_values_just_before() {
    // before 5: none; before 15: a; before 25: b
    assert_eq!(taken(CLOCKED, &["--on", "posedge clk"]), [0, 1, 2]);
    // before 10: a; before 20: b
    assert_eq!(taken(CLOCKED, &["--on", "negedge clk"]), [1, 2]);
    assert_eq!(taken(CLOCKED, &["--on", "edge clk"]), [0, 1, 1, 2, 2]);
    // after 5: a; after 15 and 25: b
    let settled = ["--on", "posedge top.clk", "--settled"];
    assert_eq!(taken(CLOCKED, &settled), [1, 2, 2]);
    // the clock is itself a signal, and 0 just before it rises
    let named = taken_of("a=top.a,k=clk", CLOCKED, &["--on", "posedge k"]);
    assert_eq!(named, [0, 1, 0]);
    let named = taken_of("a=top.a,k=clk", CLOCKED, &["--on=posedge k", "--settled"]);
    assert_eq!(named, [3, 2, 2]);
}

#[test]
fn what_comes_and_goes_within_one_time_is_no_edge() {
    // at 5 the clock ends where it began, also where the time is written twice; at 10 it has risen
    let body = "#0 0c 0a 0b #5 1c 0c #7 1c #7 0c #10 1c 0c 1c 1a #15 0c #20 1c";
    assert_eq!(taken(body, &["--on", "posedge clk"]), [0, 1]);
}

#[test]
fn the_first_value_of_the_clock_is_no_edge() {
    // values before the first time are of time 0
    let (said, taken) = run(
        &format!("{HEAD}1c 1a 0b #5 0c #10 1c"),
        &["--signals", AB, "--on", "posedge clk"],
    );
    assert_eq!(taken, Some(vec![1]));
    assert!(said.out.contains("out.svw: 1 sample, at 10 ns\n"));
    // nothing is known of a and b before the first time
    let body = "#5 0c 1a 0b #6 1c";
    assert_eq!(taken_of(AB, body, &["--on", "posedge clk"]), [1]);
}

#[test]
fn a_clock_that_may_have_had_an_edge_is_told() {
    let on = |edge| ["--on", edge];
    let posedge = ["top.clk", "5 ns", "posedge", "--x"];
    told(AB, "#0 xc 0a 0b #5 1c", &on("posedge clk"), 4, &posedge);
    told(AB, "#0 0c 0a 0b #5 zc", &on("posedge clk"), 4, &posedge);
    told(AB, "#0 Uc 0a 0b #5 0c", &on("negedge clk"), 4, &["negedge"]);
    told(AB, "#0 1c 0a 0b #5 xc", &on("edge clk"), 4, &["edge"]);
    // x and z may be 0 and 1
    let body = "#0 1c 0a 0b #3 xc #5 zc #10 0c #15 1c";
    told(AB, body, &on("posedge clk"), 4, &posedge);
    let body = "#0 1c 0a 0b #3 xc #5 Xc #10 0c #15 1c 1a #20 0c #25 1c";
    assert_eq!(taken(body, &on("posedge clk")), [0, 1]);
    // x to 0 and 1 to x are no rise, whatever x is
    let start = "#0 xc 0a 0b #5 0c #10 1c 1a #15 xc #20 0c #25 1c";
    assert_eq!(taken(start, &on("posedge clk")), [0, 1]);
    // before --from it does no harm
    let start = "#0 xc 0a 0b #5 0c #10 1c 1a #15 0c";
    let later = ["--on", "negedge clk", "--from", "6"];
    assert_eq!(taken(start, &later), [1]);
    // with --x 0 the clock rises at 5, with --x 1 it was high before
    let start = "#0 xc 0a 0b #5 1c #10 0c #15 1c 1a #20 0c #25 1c";
    let read = |x| taken(start, &["--on", "posedge clk", "--x", x]);
    assert_eq!((read("0"), read("1")), (vec![0, 0, 1], vec![0, 1]));
}

/// The clock rises at 5 and 25; between 7 and 20 nothing is dumped.
const OFF: &str =
    "#0 0c 0a 0b\n#5 1c\n#7 $dumpoff xc xa xb bx v $end\n#20 $dumpon 0c 1a 0b $end\n#25 1c\n";

#[test]
fn edges_are_not_lost_while_nothing_is_dumped() {
    let on = ["--on", "posedge clk"];
    for off in [OFF, &OFF.replace("xc xa xb bx v ", "")] {
        told(AB, off, &on, 4, &["top.clk", "7 ns", "$dumpoff"]);
        let from = |time| [&on[..], &["--from", time]].concat();
        told(AB, off, &from("8"), 4, &["20 ns", "$dumpoff"]);
        assert_eq!(taken(off, &from("20")), [1]);
        assert_eq!(taken(off, &["--on", "posedge clk", "--count", "1"]), [0]);
        assert_eq!(taken(off, &["--on", "posedge clk", "--x", "0"]), [0, 1]);
    }
}

#[test]
fn a_value_while_nothing_is_dumped_is_told() {
    // the clock that is said to be 1 may have fallen and risen before 20
    let off = OFF.replace("xc xa", "1c xa");
    for x in [&["--x", "0"][..], &[]] {
        let words = [&["--on", "posedge clk"], x].concat();
        told(AB, &off, &words, 4, &["top.clk", "$dumpoff and $dumpon"]);
    }
    // what is not chosen may be any
    let on = ["--on", "posedge clk", "--from", "20"];
    assert_eq!(taken(&OFF.replace("bx v", "b1 v"), &on), [1]);
}

#[test]
fn an_unknown_value_in_a_sample_is_told() {
    let every = ["--every", "10ns"];
    let parts = ["a (top.a)", "at 10 ns", "sample 1", "$dumpoff", "--x 0"];
    told(AB, OFF, &every, 4, &parts);
    // at 0 none, at 10 both are read as 1, at 20 a
    let words = ["--signals", AB, "--every", "10ns", "--x", "1"];
    let (said, samples) = run(&format!("{HEAD}{OFF}"), &words);
    assert_eq!(samples, Some(vec![0, 3, 1]));
    assert!(said.out.ends_with("2 unknown values were read as 1\n"));
    for digit in ["x", "X", "z", "Z", "U", "W", "-"] {
        let body = format!("#0 0c {digit}a 0b #5 1c");
        let parts = [&format!("a (top.a) is {digit};"), "just before 5 ns"];
        told(AB, &body, &["--on", "posedge clk"], 4, &parts);
    }
    told(
        AB,
        "#0 0c 0a #5 1c",
        &["--on", "posedge clk"],
        4,
        &["b (top.b) is without a value yet"],
    );
    // unknown only where no sample is taken
    let body = "#0 0c xa 0b #3 0a #5 1c xa #6 1a #7 0c #8 1c";
    assert_eq!(taken(body, &["--on", "posedge clk"]), [0, 1]);
    // VHDL's H and L
    assert_eq!(taken("#0 Ha Lb #1 la hb", &[]), [1, 2]);
}

#[test]
fn samples_every_so_often() {
    // from 10 on b, from 14 on a and b, from 20 on a
    let body = "#10 0a 1b\n#14 1a\n#20 0b\n#35\n";
    assert_eq!(taken(body, &["--every", "10ns"]), [2, 1, 1]);
    assert_eq!(taken(body, &["--every", "10"]), [2, 1, 1]);
    // what stands before the first time is of time 0, a number too
    assert_eq!(taken("r1.5 r #0 0a 1b #9", &["--every", "5"]), [2, 2]);
    told(AB, "r1.5 r #5 0a 1b", &["--every", "5"], 4, &["at 0 ns"]);
    let from = |from, every| taken(body, &["--from", from, "--every", every]);
    assert_eq!(from("12", "4"), [2, 3, 1, 1, 1, 1]);
    assert_eq!(from("34ns", "1us"), [1]);
    // at 35 nothing is said but that the waveform ends, and at 10 below something is
    let end = ["--from", "35ns", "--every", "1us"];
    told(AB, body, &end, 4, &["nothing to sample at or after 35 ns"]);
    assert_eq!(taken("#0 0a 1b\n#10 1a\n", &["--every", "5"]), [2, 2, 3]);
    // 12.5, 14 (with what changes at 14) and 15.5; then up to 35
    let fine = ["--from", "12.5ns", "--every", "1.5ns", "--count", "3"];
    assert_eq!(taken(body, &fine), [2, 3, 3]);
    assert_eq!(from("12.5ns", "1500ps").len(), 15);
    // 5 is before the first time: nothing is known
    let early = ["--from", "5", "--every", "5"];
    told(
        AB,
        body,
        &early,
        4,
        &["sample 0, at 5 ns: a (top.a) is without a value yet"],
    );
    let early = ["--from", "5", "--every", "5", "--x", "0"];
    assert_eq!(taken(body, &early), [0, 2, 3, 1, 1, 1]);
    told(AB, body, &["--every", "0ns"], 2, &["longer than 0"]);
    // a step that is tiny beside the times stops at the 64th sample
    let far = "0a 0b #18446744073709551615";
    told(AB, far, &["--every", "1fs"], 4, &["more than 63"]);
    assert_eq!(taken(far, &["--every", "9223372036854775807"]).len(), 3);
}

#[test]
fn samples_at_changes() {
    // 3: b. 4: the clock is not chosen. 5: a comes and goes. 6: a and b. 8: nothing. 9: a
    let body = "#3 0a 1b\n#4 1c\n#5 1a 0a\n#6 1a\n#8\n#9 0b\n";
    assert_eq!(taken(body, &[]), [2, 3, 1]);
    assert_eq!(taken(body, &["--from", "4ns"]), [3, 1]);
    let unknown = "#0 xa 0b #2 0a #3 xa #4 1a";
    told(AB, unknown, &[], 4, &["a (top.a) is x", "0 ns", "sample 0"]);
    // with x read as 0, a changes at 4 alone
    assert_eq!(taken(unknown, &["--x", "0"]), [0, 1]);
    assert_eq!(taken(unknown, &["--x", "1"]), [1, 0, 1]);
}

/// A clock that rises so many times, at 10, 20, 30 and so on.
fn rises(count: usize) -> String {
    let rise = |number| format!("#{} 1c #{} 0c\n", 10 * number, 10 * number + 5);
    let rises: String = (1..=count).map(rise).collect();
    format!("#0 0c 0a 1b\n{rises}")
}

#[test]
fn a_record_is_never_cut_in_silence() {
    let on = ["--on", "posedge clk"];
    assert_eq!(taken(&rises(63), &on), [2; 63]);
    let parts = ["more than 63", "640 ns", "--count 63", "--from"];
    told(AB, &rises(64), &on, 4, &parts);
    let count = |count| ["--on", "posedge clk", "--count", count];
    assert_eq!(taken(&rises(64), &count("63")), [2; 63]);
    assert_eq!(taken(&rises(3), &count("63")), [2; 3]);
    // reading stops with the last sample that is asked for
    assert_eq!(taken(&format!("{}nonsense", rises(3)), &count("2")), [2; 2]);
    for wrong in ["64", "-1", "many", ""] {
        told(AB, &rises(3), &count(wrong), 2, &["0 to 63"]);
    }
}

#[test]
fn an_empty_record_must_be_asked_for() {
    let on = ["--on", "posedge clk", "--from", "31ns"];
    told(
        AB,
        &rises(3),
        &on,
        4,
        &[
            "no posedge of top.clk at or after 31 ns",
            "ends at 35 ns",
            "--count 0",
        ],
    );
    told(AB, "", &[], 4, &["no change", "no values"]);
    told(AB, "#5", &["--every", "1"], 4, &["nothing to sample"]);
    let empty = ["--signals", AB, "--count", "0"];
    let (said, samples) = run(&format!("{HEAD}{}", rises(3)), &empty);
    assert_eq!(samples, Some(vec![]));
    assert!(said.out.contains("out.svw: 0 samples\n"));
}

#[test]
fn a_bit_of_a_vector_is_chosen_by_its_index() {
    // 1000_0010 from left to right: 7 to 0 of data, 0 to 7 of up
    let body = "#0 b10000010 v b10000010 w";
    let bit = |path: &str| taken_of(&format!("a={path}"), body, &[]);
    for (index, value) in [(7, 1), (6, 0), (2, 0), (1, 1), (0, 0)] {
        assert_eq!(bit(&format!("top.data[{index}]")), [value]);
        assert_eq!(bit(&format!("up[{}]", 7 - index)), [value]);
    }
    let bits = "a=data[7],b=data[6],c=data[1],d=data[0]";
    // short values are extended at the left: 10 is 0000_0010, and a scalar is one digit
    assert_eq!(taken_of(bits, "#0 b10 v", &[]), [0b0100]);
    assert_eq!(taken_of(bits, "#0 B11000000 v", &[]), [0b0011]);
    assert_eq!(taken_of(bits, "#0 1v", &[]), [0b1000]);
    assert_eq!(taken_of("d=data[0]", "#0 bx1 v", &[]), [1]);
    told(bits, "#0 bx1 v", &[], 4, &["a (top.data[7]) is x"]);
    told(bits, "#0 zv", &[], 4, &["a (top.data[7]) is z"]);
    // a vector's value for one bit
    assert_eq!(taken("#0 b1 a b0000 b", &[]), [1]);
    told(
        AB,
        "#0\nb10 a b0 b",
        &[],
        4,
        &["w.vcd:12:", "2 digits for top.a"],
    );
}

#[test]
fn a_path_may_be_shortened_and_must_be_clear() {
    let body = "#0 1a 0b 1d";
    assert_eq!(taken_of("x=top.a,y=top.dut.b", body, &[]), [3]);
    // the same signal under two names is one
    assert_eq!(taken_of("x=a_in,y=dut.b", body, &[]), [3]);
    assert_eq!(taken_of("_x.1=a", body, &[]), [1]);
    told(
        "x=b",
        body,
        &[],
        4,
        &["b can be any of these", "top.b\n", "top.dut.b"],
    );
    told(
        "x=top.dut.c",
        body,
        &[],
        4,
        &["no variable top.dut.c", "top.dut.b?", "kit signals"],
    );
    told(
        "x=clock",
        body,
        &[],
        4,
        &["no variable clock", "kit signals"],
    );
    told("x=ut.b", body, &[], 4, &["no variable ut.b"]);
    told(
        "x=data",
        body,
        &[],
        4,
        &["top.data has the bits [7:0]", "top.data[0]"],
    );
    told("x=data[3:0]", body, &[], 4, &["choose one of them"]);
    told("x=up[8]", body, &[], 4, &["no top.up[8]", "[0:7]"]);
    told("x=top.a[0]", body, &[], 4, &["one bit", "leave [0] out"]);
    told("x=volts", body, &[], 4, &["no bits", "real"]);
    told(
        "x=a",
        body,
        &["--on", "posedge clock"],
        4,
        &["no variable clock"],
    );
    told("x=a", body, &["--on", "posedge volts"], 4, &["no bits"]);
}

#[test]
fn wrong_words_are_told() {
    let usage =
        |signals: &str, words: &[&str], part: &str| told(signals, "", words, 2, &[part, "--help"]);
    usage("a", &[], "not NAME=PATH");
    usage("a=top.a,", &[], "not NAME=PATH");
    usage("a=top.a,a=top.b", &[], "name a twice");
    usage("1a=top.a", &[], "'1a' is no name");
    usage("=top.a", &[], "'' is no name");
    usage("a=", &[], "not NAME=PATH");
    let many: Vec<String> = (0..65).map(|n| format!("a{n}=top.a")).collect();
    usage(&many.join(","), &[], "more than 64");
    usage(AB, &["--on", "rising clk"], "posedge CLOCK");
    usage(AB, &["--on", "posedge"], "posedge CLOCK");
    usage(
        AB,
        &["--on", "edge clk", "--every", "1"],
        "give one of them",
    );
    usage(AB, &["--settled"], "--settled goes with --on");
    usage(AB, &["--x", "2"], "--x is 0 or 1");
    usage(AB, &["--from", "soon"], "--from: a time such as 120ns");
    usage(AB, &["--every", "0.5fs"], "femtoseconds");
    usage(AB, &["--form", "1"], "--from");
    let (said, _) = run(HEAD, &[]);
    assert!(said.status == 2 && said.err.contains("--signals"));
    let all = &many[..64].join(",");
    assert_eq!(taken_of(all, "#0 1a", &[]), [u64::MAX]);
}

#[test]
fn mistakes_are_told_with_their_line() {
    let cases = [
        (
            "#0 0a 0b\n#5x",
            "w.vcd:12: a whole number after # is expected",
        ),
        (
            "#0 0a 0b\n\n#10\n#9",
            "w.vcd:14: the time goes back from #10 to #9",
        ),
        ("#18446744073709551616", "w.vcd:11: a time from #0"),
        ("#", "w.vcd:11: a time from #0"),
        ("0a 0b #1\nb01q1 v", "w.vcd:12: b and the digits"),
        ("b v", "w.vcd:11: b and the digits"),
        ("0a 0b\nb01", "w.vcd:12: the file ends after a value"),
        ("0a\n1", "w.vcd:12: a value with its code"),
        ("0a\nnonsense", "w.vcd:12: a time such as #10"),
        ("0a 0b\r\n#1\r\npX 6 6 a", "w.vcd:13: pX is of extended VCD"),
        ("$dumpports", "w.vcd:11: $dumpports is of extended VCD"),
        (
            "0a\n$var wire 1 e e $end",
            "w.vcd:12: after $enddefinitions",
        ),
        (
            "0a 0b\n$comment never closed",
            "w.vcd:12: the file ends inside",
        ),
        ("0a 0b\nr1.5 a", "w.vcd:12: a number or a string for top.a"),
    ];
    for (body, message) in cases {
        told(AB, body, &[], 4, &[message]);
    }
}

#[test]
fn mistakes_in_the_header_are_told_with_their_line() {
    let cases = [
        ("\n", "w.vcd:2: the file ends before $enddefinitions"),
        ("\u{1f}\u{8b}\u{8}", "w.vcd:1: a section such as"),
        ("$date\n$end\nVCD", "w.vcd:3: a section such as"),
        ("$date\n$end\n#0", "w.vcd:3: a section such as"),
        ("$dumpvars", "w.vcd:1: $enddefinitions is expected"),
        (
            "\n$var wire one ! a $end",
            "w.vcd:2: the size of a variable",
        ),
        ("\n$var wire 1 ! $end", "w.vcd:2: $var needs a name"),
        ("$var wire $end", "w.vcd:1: $var needs a kind"),
        ("\n$var wire 1 ! a", "w.vcd:2: $end is expected after $var"),
        ("$upscope $end", "w.vcd:1: $upscope without a scope"),
        ("\n$timescale 2 parsecs $end", "w.vcd:2: a timescale is"),
        (
            "$timescale 1ns $end\n$timescale 10ns $end",
            "w.vcd:2: two timescales",
        ),
        ("\n\n$version 1", "w.vcd:3: the file ends inside"),
        ("META 1", "w.vcd:1: a key such as samplerate:"),
    ];
    for (text, message) in cases {
        let (said, _) = run(text, &["--signals", AB]);
        assert_eq!(said.status, 4);
        assert!(said.err.contains(message), "{text:?}: {}", said.err);
        let folder = Folder::new();
        let path = folder.file("w.vcd", text);
        let said = kit(["signals", &path]);
        assert!(said.status == 4 && said.err.contains(message));
    }
}

#[test]
fn white_space_comments_and_other_sections_are_passed_over() {
    let body = "$comment by hand $end\n#0\n$dumpvars\n0a\n1b r1.5 r\n$end $mine 1a $end\n#5 1a\n$dumpall 1a 1b shello r $end";
    let text = format!("{HEAD}{body}");
    let words = ["--signals", AB];
    let expected = Some(vec![2, 3]);
    assert_eq!(run(&text, &words).1, expected);
    assert_eq!(run(&text.replace('\n', "\r\n"), &words).1, expected);
    assert_eq!(run(&text.replace(' ', "\t"), &words).1, expected);
    assert_eq!(
        run(&text.replace([' ', '\n'], " \n \r\n"), &words).1,
        expected
    );
}

#[test]
fn times_are_in_any_timescale() {
    // a scale, the time of #1, a time of a femtosecond later, and the times of #2 and #3
    for (scale, from, later, shown) in [
        ("1fs", "1fs", "2fs", "2 fs to 3 fs"),
        ("10 ps", "0.01ns", "0.010001ns", "20 ps to 30 ps"),
        ("100us", "0.1ms", "0.100000000001ms", "200 us to 300 us"),
        ("1 ms", "1", "1.000000000001ms", "2 ms to 3 ms"),
        ("100 s", "100s", "100.000000000000001s", "200 s to 300 s"),
    ] {
        let head = HEAD.replace("1ns", scale);
        let text = format!("{head}#0 0a 0b #1 1a #2 1b #3 0b");
        let (said, taken) = run(&text, &["--signals", AB, "--from", from]);
        assert_eq!(taken, Some(vec![1, 3, 1]), "{}", said.err);
        let (said, taken) = run(&text, &["--signals", AB, "--from", later]);
        assert_eq!(taken, Some(vec![3, 1]), "{}", said.err);
        assert!(said.out.contains(shown), "{}", said.out);
    }
    let none = HEAD.replace("$timescale 1ns $end", "");
    let text = format!("{none}#0 0a 0b #10 1a");
    let (said, taken) = run(&text, &["--signals", AB, "--from", "5"]);
    assert_eq!(taken, Some(vec![1]));
    assert!(said.out.contains("1 sample, at 10 ticks"));
    let (said, _) = run(&text, &["--signals", AB, "--from", "5ns"]);
    assert!(said.status == 2 && said.err.contains("no $timescale"));
}

#[test]
fn the_report_says_what_was_recorded() {
    let words = ["--signals", "ack=top.a,b=data[3]", "--x", "0"];
    let (said, _) = run(&format!("{HEAD}#0 0a\n#1500 1a"), &words);
    let line = said.out.lines().next().unwrap_or_default();
    assert!(
        line.ends_with("out.svw: 2 samples, 0 ns to 1.5 us"),
        "{line}"
    );
    let rest =
        "signal 0  ack  top.a\nsignal 1  b    top.data[3]\n2 unknown values were read as 0\n";
    assert!(said.out.ends_with(rest), "{}", said.out);
    assert!(said.err.is_empty());
}

#[test]
fn signals_are_listed_in_the_order_of_the_file() {
    let folder = Folder::new();
    // what follows the header is not read
    let path = folder.file("w.vcd", format!("{HEAD}nonsense"));
    let said = kit(["signals", &path]);
    let expected = "8 variables; times are in units of 1 ns
top.clk       1        wire
top.a         1        wire
top.b         1        reg
top.data      [7:0]    wire
top.up        [0:7]    wire
top.volts     -        real
top.dut.a_in  1        wire     same as top.a
top.dut.b     1        wire
";
    assert_eq!((said.status, said.out.as_str()), (0, expected));
    let path = folder.file("none.vcd", "$enddefinitions $end");
    let said = kit(["signals", &path]);
    assert!(said.out.starts_with("0 variables; times are in ticks"));
}

#[test]
fn the_waveform_is_never_written_over() {
    let folder = Folder::new();
    let path = folder.file("w.vcd", format!("{HEAD}#0 0a 0b"));
    for force in [&["--force"][..], &[]] {
        let words = ["record", "--signals", AB, "-o", &path, &path];
        let said = kit([&words[..], force].concat());
        let expected = match force {
            [] => ": the name of a record ends in .svw; --force writes it under any name\n",
            _ => " would write over an input\n",
        };
        let expected = format!("kit record: -o {path}{expected}");
        assert!(
            said.status == 2 && said.err.starts_with(&expected),
            "{said:?}"
        );
    }
    assert!(std::fs::read_to_string(&path).is_ok_and(|text| text.starts_with(HEAD)));
}

#[test]
fn files_that_are_none_are_told() {
    let folder = Folder::new();
    let mut files = vec![folder.path("none.vcd"), folder.path(".")];
    if cfg!(target_os = "linux") {
        files.push("/dev/zero".into());
        files.push("/dev/null".into());
    }
    for file in files {
        let said = record(&folder, &file, &["--signals", AB]);
        assert_eq!(said.status, 4, "{}", said.err);
        assert!(said.err.starts_with("kit record: ") && said.out.is_empty());
        let said = kit(["signals", &file]);
        assert_eq!(said.status, 4);
    }
}

#[test]
fn a_code_that_nobody_declared_is_damage() {
    let body = "#0 0a 0b\n#5 1a\n#6 hello\n";
    told(
        AB,
        body,
        &[],
        4,
        &["w.vcd:13:", "the code ello, which no $var declares"],
    );
    told(
        AB,
        "#0 0a 0b\n#5 b101 q\n",
        &[],
        4,
        &["w.vcd:12:", "the code q"],
    );
    told(
        AB,
        "#0 0a 0b\n#5 r1.5 q\n",
        &[],
        4,
        &["w.vcd:12:", "the code q"],
    );
}

#[test]
fn a_text_gives_the_signals_their_numbers() {
    let folder = Folder::new();
    let wave = folder.file("w.vcd", format!("{HEAD}#0 1a 0b\n#5 0a 1b\n"));
    let text = folder.file("names.txt", "signals b=0 a=5\nstrong(a ##1 b)\n");
    let said = record(&folder, &wave, &["--signals", AB, "--names", &text]);
    assert_eq!(said.status, 0, "{}", said.err);
    assert_eq!(samples(&folder), [1 << 5, 1]);

    let said = record(&folder, &wave, &["--signals", "x=top.a", "--names", &text]);
    assert_eq!(said.status, 4);
    assert!(said.err.contains("declares no signal x"), "{}", said.err);

    let empty = folder.file("empty.txt", "strong(a)\n");
    let words = ["--signals", AB, "--names", &empty];
    let said = record(&folder, &wave, &words);
    assert_eq!(said.status, 4);
    assert!(
        said.err.contains("no line declares signals"),
        "{}",
        said.err
    );
}

#[test]
fn a_signal_that_the_text_declares_is_not_forgotten() {
    let folder = Folder::new();
    let wave = folder.file("w.vcd", format!("{HEAD}#0 1a 0b\n#5 0a 1b\n"));
    let text = folder.file("bus.txt", "signals a b abort busy=9\n");
    let run = |signals: &str| record(&folder, &wave, &["--signals", signals, "--names", &text]);
    let told = |signals: &str, words: &str| {
        let said = run(signals);
        let wanted =
            format!("kit record: {text} declares {words} for a signal that is 0 in every sample\n");
        assert_eq!((said.status, said.err.as_str()), (4, wanted.as_str()));
        assert!(!folder.join("out.svw").exists());
    };
    let add = "add abort=PATH, or abort=0";
    let both = "abort (signal 2) and busy (signal 9), and --signals does not choose them";
    told(AB, &format!("{both}: {add}"));
    let one = "abort (signal 2), and --signals does not choose it";
    told("a=top.a,b=top.b,busy=1", &format!("{one}: {add}"));
    let said = run("busy=1,b=top.b,abort=0,a=top.a");
    assert_eq!(said.status, 0, "{}", said.err);
    // busy is bit 9
    assert_eq!(samples(&folder), [0x201, 0x202]);
    let lines = "signal 0  a      top.a\nsignal 1  b      top.b\n\
                 signal 2  abort  0 in every sample\nsignal 9  busy   1 in every sample\n";
    assert!(said.out.ends_with(lines), "{}", said.out);
}

#[test]
fn a_constant_is_the_same_in_every_sample() {
    // the first is signal 0, and what is constant does not change
    assert_eq!(taken_of("k=1,a=top.a,n=0", "#0 1a\n#5 0a\n", &[]), [3, 1]);
    assert_eq!(taken_of("k=1", "#0 0a\n#5 1a\n", &["--every", "5"]), [1, 1]);
    told("k=1", "#0 0a\n#5 1a\n", &[], 4, &["no change of a chosen"]);
    // it is known while nothing is dumped
    assert_eq!(taken_of("k=1", OFF, &["--every", "10"]), [1, 1, 1]);
    let parts = ["--on: k is a constant, and a clock is a variable", "--help"];
    told("a=top.a,k=1", CLOCKED, &["--on", "posedge k"], 2, &parts);
    told(AB, CLOCKED, &["--on", "posedge 1"], 4, &["no variable 1"]);
    told("k=2", CLOCKED, &[], 4, &["no variable 2"]);
}

#[test]
fn a_variable_that_is_called_0_is_not_taken_for_a_constant() {
    let channels = HEAD.replace(" c clk ", " c 0 ");
    let run = |signals| {
        run(
            &format!("{channels}#0 0c 0a #5 1c"),
            &["--signals", signals],
        )
    };
    let (said, _) = run("k=0");
    assert_eq!(said.status, 4);
    let words = "0 can be the variable top.0 or a constant: write top.0, or 1'b0 for a signal";
    assert!(said.err.contains(words), "{}", said.err);
    assert_eq!(
        run("k=top.0,n=1'b0,m=1'b1,o=1").1,
        Some(vec![0b1100, 0b1101])
    );
}

#[test]
fn the_times_of_the_samples_are_listed() {
    let words = ["--signals", AB, "--on", "posedge clk", "--times"];
    let (said, _) = run(&format!("{HEAD}{CLOCKED}"), &words);
    let lines = "signal 1  b  top.b\nsample 0  5 ns\nsample 1  15 ns\nsample 2  25 ns\n";
    assert!(said.out.ends_with(lines), "{}", said.out);
    let (said, _) = run(&format!("{HEAD}{}", rises(11)), &words);
    let lines = "sample 8   90 ns\nsample 9   100 ns\nsample 10  110 ns\n";
    assert!(said.out.ends_with(lines), "{}", said.out);
    // from a time at which nothing changes, and by a time that is no whole number of ticks
    let words = [
        "--signals",
        "a=top.a",
        "--from",
        "2",
        "--every",
        "2.5ns",
        "--times",
    ];
    let (said, _) = run(&format!("{HEAD}#0 0a\n#5 1a\n"), &words);
    let lines = "top.a\nsample 0  2 ns\nsample 1  4.5 ns\n";
    assert!(said.out.ends_with(lines), "{}", said.out);
    let words = ["--signals", AB, "--count", "0", "--times"];
    let (said, _) = run(&format!("{HEAD}{CLOCKED}"), &words);
    assert!(said.out.ends_with("top.b\n"), "{}", said.out);
}
