//! Records of windows that overlap.
use super::{rises, told, unclear, unknown, BITS, HEAD, ON};
use crate::support::{kit, Folder, Ran};
use std::fs;

/// Runs `kit record --windows` with the name `w.svw`, and answers the records by name.
fn run(body: &str, words: &[&str]) -> (Ran, Vec<(String, Vec<u64>)>) {
    let folder = Folder::new();
    let path = folder.file("in/w.vcd", format!("{HEAD}{body}"));
    let out = folder.path("w.svw");
    let words = [&["record", &path, "--windows", "-o", &out], words].concat();
    let said = kit(words);
    let files = fs::read_dir(&*folder).unwrap().map(|entry| entry.unwrap());
    let files = files.filter(|entry| entry.path().extension().is_some_and(|it| it == "svw"));
    let mut records: Vec<(String, Vec<u64>)> = files
        .map(|file| {
            let samples = xistomar::samples(&fs::read(file.path()).unwrap()).unwrap();
            (file.file_name().into_string().unwrap(), samples)
        })
        .collect();
    records.sort();
    let place = folder.path("");
    let out = said.out.replace(&place, "");
    (Ran { out, ..said }, records)
}

/// Asks for records with these names, from the first sample to the last.
#[track_caller]
fn expect(body: &str, words: &[&str], expected: &[(&str, u64, u64)]) -> String {
    let (said, records) = run(body, &[&ON[..], words].concat());
    assert_eq!(said.status, 0, "{}", said.err);
    let range = |(name, first, last): &(&str, u64, u64)| {
        (name.to_string(), (*first..=*last).collect::<Vec<u64>>())
    };
    assert_eq!(records, expected.iter().map(range).collect::<Vec<_>>());
    said.out
}

#[test]
fn windows_begin_half_a_window_apart_and_end_with_the_last_sample() {
    let four = ["--count", "4"];
    // one that is not full, and one that is
    expect(&rises(1..=1), &four, &[("w-10ns.svw", 1, 1)]);
    expect(&rises(1..=3), &four, &[("w-10ns.svw", 1, 3)]);
    expect(&rises(1..=4), &four, &[("w-10ns.svw", 1, 4)]);
    // the last is moved back to be full
    let two = [("w-10ns.svw", 1, 4), ("w-20ns.svw", 2, 5)];
    expect(&rises(1..=5), &four, &two);
    let two = [("w-10ns.svw", 1, 4), ("w-30ns.svw", 3, 6)];
    expect(&rises(1..=6), &four, &two);
    let three = [
        ("w-10ns.svw", 1, 4),
        ("w-30ns.svw", 3, 6),
        ("w-40ns.svw", 4, 7),
    ];
    expect(&rises(1..=7), &four, &three);
    // of 5 the overlap is 2
    let two = [("w-10ns.svw", 1, 5), ("w-40ns.svw", 4, 8)];
    expect(&rises(1..=8), &["--count", "5"], &two);
    let one = [("w-10ns.svw", 1, 1), ("w-20ns.svw", 2, 2)];
    expect(&rises(1..=2), &["--count", "1"], &one);
    // 63 with 31 of the one before
    let two = [("w-010ns.svw", 1, 63), ("w-330ns.svw", 33, 95)];
    expect(&rises(1..=95), &[], &two);
    let three = [
        ("w-010ns.svw", 1, 63),
        ("w-330ns.svw", 33, 95),
        ("w-340ns.svw", 34, 96),
    ];
    expect(&rises(1..=96), &[], &three);
}

#[test]
fn another_overlap() {
    let none = [
        ("w-10ns.svw", 1, 4),
        ("w-50ns.svw", 5, 8),
        ("w-60ns.svw", 6, 9),
    ];
    expect(&rises(1..=9), &["--count", "4", "--overlap", "0"], &none);
    let most = [
        ("w-10ns.svw", 1, 4),
        ("w-20ns.svw", 2, 5),
        ("w-30ns.svw", 3, 6),
    ];
    expect(&rises(1..=6), &["--count", "4", "--overlap", "3"], &most);
    let five = rises(1..=5);
    let wrong = ["--windows", "--count", "4", "--overlap", "4"];
    told(&five, &wrong, 2, "--overlap is a number, 0 to 3, not '4'");
    let wrong = ["--windows", "--overlap", "63"];
    told(&five, &wrong, 2, "--overlap is a number, 0 to 62, not '63'");
    let wrong = ["--windows", "--count", "0"];
    told(&five, &wrong, 2, "--count is a number, 1 to 63, not '0'");
}

#[test]
fn names_sort_by_time_and_have_one_unit() {
    // 90 and 110 ns, and 5 us: one unit, and as many digits
    let body = "#9 0c b1 n #10 1c #90 0c #100 1c #4000 0c #5000 1c\n";
    let words = ["--count", "1", "--overlap", "0"];
    let (_, records) = run(body, &[&ON[..], &words].concat());
    let names: Vec<&str> = records.iter().map(|(name, _)| name.as_str()).collect();
    assert_eq!(names, ["w-0010ns.svw", "w-0100ns.svw", "w-5000ns.svw"]);
    // all are whole microseconds; the first is 0
    let every = ["--signals", BITS, "--every", "2us", "--count", "1"];
    let (_, records) = run("#5000\n", &every);
    let names: Vec<&str> = records.iter().map(|(name, _)| name.as_str()).collect();
    assert_eq!(names, ["w-0us.svw", "w-2us.svw", "w-4us.svw"]);
    // a tick's unit where there is no other time
    let (_, records) = run("#1\n", &["--signals", BITS]);
    assert_eq!(records[0].0, "w-0ns.svw");
}

#[test]
fn the_report_has_the_first_and_the_last_name() {
    let said = expect(&rises(1..=3), &["--count", "4"], &[("w-10ns.svw", 1, 3)]);
    assert!(
        said.starts_with("w-10ns.svw: 1 record, 3 samples, 10 ns to 30 ns\nsignal 0  a  n[0]\n")
    );
    let three = [
        ("w-10ns.svw", 1, 4),
        ("w-30ns.svw", 3, 6),
        ("w-40ns.svw", 4, 7),
    ];
    let said = expect(
        &rises(1..=7),
        &["--count", "4", "--x", "0", "--times"],
        &three,
    );
    let (first, rest) = said.split_once("signal 0").unwrap();
    let expected = "w-10ns.svw to w-40ns.svw: 3 records, 7 samples, 10 ns to 70 ns\n4 samples each, \
                    a record begins 2 samples after the one before, and the last ends with the last \
                    sample\n";
    assert_eq!(first, expected);
    let expected =
        "signal 7  h  n[7]\n0 unknown values were read as 0\nw-10ns.svw  10 ns to 40 ns\n\
                    w-30ns.svw  30 ns to 60 ns\nw-40ns.svw  40 ns to 70 ns\n";
    assert!(rest.ends_with(expected), "{rest}");
}

#[test]
fn nothing_is_written_where_a_window_cannot_be_made() {
    let nothing = |body: &str, words: &[&str], part: &str| {
        let (said, records) = run(body, &[&ON[..], words].concat());
        assert_eq!((said.status, records.len()), (4, 0), "{}", said.err);
        assert!(said.err.contains(part), "{}", said.err);
    };
    // the third of all, in the second record
    let part =
        "sample 2 of all, just before 30 ns: a (n[0]) is x; --x 0 or --x 1 says how to read \
                such values, --from starts later, --to ends sooner\n";
    nothing(&unknown(), &["--count", "2", "--overlap", "0"], part);
    nothing(&unclear(), &["--count", "2"], "goes from 0 to x at 23 ns");
    nothing(
        &rises(1..=3),
        &["--from", "31"],
        "no posedge of clk at or after 31 ns",
    );
    // 10,000 windows of one sample hold 10,000
    let every = ["--signals", BITS, "--every", "1", "--count", "1"];
    let (said, records) = run("#20000\n", &every);
    assert_eq!((said.status, records.len()), (4, 0));
    let part =
        "w.vcd: more than 10000 samples, which 10000 windows hold, and the next is at 10 us; \
                --from T and --to T choose a part of them\n";
    assert!(said.err.ends_with(part), "{}", said.err);
}

/// Each record has its own file beside it, and one name that is taken keeps all from being written.
#[test]
fn each_window_has_its_names_and_times() {
    let folder = Folder::new();
    let path = folder.file("w.vcd", format!("{HEAD}{}", rises(1..=6)));
    let out = folder.path("w.svw");
    let words = [
        "record",
        path.as_str(),
        "--windows",
        "--count",
        "4",
        "-o",
        &out,
    ];
    let words = [&words, &ON[..]].concat();
    let taken = folder.file("w-30ns.svw", "mine");
    let said = kit(&words);
    let told = format!("kit record: {taken}: cannot be written: it is there already");
    assert!(
        said.status == 4 && said.err.starts_with(&told),
        "{}",
        said.err
    );
    assert!(!folder.join("w-10ns.svw").exists());
    fs::remove_file(&taken).unwrap();
    assert_eq!(kit(&words).status, 0);
    for (name, times) in [
        ("w-10ns.svw", ["10 ns", "20 ns", "30 ns", "40 ns"]),
        ("w-30ns.svw", ["30 ns", "40 ns", "50 ns", "60 ns"]),
    ] {
        let beside = fs::read(folder.join(format!("{name}.json"))).unwrap();
        let beside: serde_json::Value = serde_json::from_slice(&beside).unwrap();
        assert_eq!(beside["record"]["file"], name);
        assert_eq!(beside["times"], serde_json::json!(times));
    }
}

/// What an earlier run left stays, and it is said.
#[test]
fn records_of_other_windows_that_stand_there_are_told() {
    let folder = Folder::new();
    let path = folder.file("w.vcd", format!("{HEAD}{}", rises(1..=6)));
    let out = folder.path("w.svw");
    let run = |count: &str| {
        let words = [
            "record",
            path.as_str(),
            "--windows",
            "--count",
            count,
            "-o",
            &out,
        ];
        kit([&words, &ON[..]].concat())
    };
    assert_eq!(run("3").err, "");
    assert_eq!(run("3").err, "");
    let said = run("4");
    let told = "kit record: warning: 1 other record of the name w-*.svw stood there before and stays, such as \
                w-40ns.svw: kit batch of the folder judges them too\n";
    assert_eq!((said.status, said.err.as_str()), (0, told));
}

#[test]
fn a_name_without_an_ending_keeps_none() {
    let folder = Folder::new();
    let path = folder.file("w.vcd", format!("{HEAD}{}", rises(1..=2)));
    let words = |out: &str| {
        let words = ["record", path.as_str(), "--windows", "--force", "-o", out];
        kit([&words, &ON[..]].concat())
    };
    assert_eq!(words(&folder.path("run.1")).status, 0);
    assert!(folder.join("run-10ns.1").exists());
    assert_eq!(words(&folder.path("run")).status, 0);
    assert!(folder.join("run-10ns").exists());
    let said = words("..");
    assert_eq!(said.status, 2);
    assert!(said.err.contains("-o .. names no file"), "{}", said.err);
}
