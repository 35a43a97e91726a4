//! The names of signals travel with tables and records, and what does not fit is told.
use crate::support::{example, kit, record, Folder, Ran};
use std::fs;

/// A waveform of a lost flush: sampled every 10 ns from 5 ns on, the acknowledge comes at sample 1 and the
/// supply drops at sample 2; the media strobe never comes.
const LOST: &str = "$timescale 1ns $end $scope module top $end
$var wire 1 a ack $end $var wire 1 d drop $end $var wire 1 s strobe $end
$upscope $end $enddefinitions $end
#0 0a 0d 0s #10 1a #20 0a 1d #30 0a #40 0a
";

/// A text like examples/flush.txt.
const FLUSH: &str = "// durable\nsignals ack=0 drop=1 strobe=2\n\
                     always (ack |-> strong((!drop)[*1:$] ##0 strobe))\n";

struct Bench {
    folder: Folder,
    text: String,
    wave: String,
}

impl Bench {
    fn new() -> Bench {
        let folder = Folder::new();
        let text = folder.file("flush.txt", FLUSH);
        let wave = folder.file("lost.vcd", LOST);
        Bench { folder, text, wave }
    }

    /// Records the waveform with the signals in this order.
    fn record(&self, name: &str, signals: &str) -> String {
        let output = self.folder.path(name);
        let words = ["--signals", signals, "--every", "10ns", "--from", "5ns"];
        let words = [&["record", &self.wave][..], &words, &["-o", &output]].concat();
        let ran = kit(&words);
        assert_eq!((ran.status, ran.err.as_str()), (0, ""));
        output
    }

    fn good(&self) -> String {
        self.record("good.svw", "ack=ack,drop=drop,strobe=strobe")
    }

    /// The same waveform with two signals in each other's place.
    fn swapped(&self) -> String {
        self.record("swapped.svw", "ack=ack,strobe=strobe,drop=drop")
    }

    fn judge(&self, record: &str) -> Ran {
        kit(["judge", &self.text, record])
    }
}

/// What `sha256sum` prints of the waveform and of the record.
const WAVE_SHA: &str = "4064a07a7408f1936b815671ca4e84267b37a43f1ef790db097156c2f367571a";
const RECORD_SHA: &str = "a6cd29b02c7aa62aafbb3488fb31fc28a423ac0190e3aa534af8f44dbc74213e";

#[test]
fn a_record_is_written_with_what_is_known_of_it() {
    let bench = Bench::new();
    let path = bench.good();
    // ack is signal 0 and drop is signal 1
    assert_eq!(fs::read(&path).unwrap(), record(&[0, 1, 2, 2]));
    let beside = fs::read_to_string(format!("{path}.json")).unwrap();
    let expected = format!(
        r#"{{
  "written_by": "kit record",
  "kit": "{}",
  "record": {{
    "file": "good.svw",
    "sha256": "{}"
  }},
  "waveform": {{
    "file": "lost.vcd",
    "sha256": "{}"
  }},
  "options": [
    "{}",
    "--signals",
    "ack=ack,drop=drop,strobe=strobe",
    "--every",
    "10ns",
    "--from",
    "5ns",
    "-o",
    "{path}"
  ],
  "signals": [
    {{
      "number": 0,
      "name": "ack",
      "from": "top.ack"
    }},
    {{
      "number": 1,
      "name": "drop",
      "from": "top.drop"
    }},
    {{
      "number": 2,
      "name": "strobe",
      "from": "top.strobe"
    }}
  ],
  "times": [
    "5 ns",
    "15 ns",
    "25 ns",
    "35 ns"
  ]
}}
"#,
        env!("CARGO_PKG_VERSION"),
        RECORD_SHA,
        WAVE_SHA,
        bench.wave
    );
    assert_eq!(beside, expected);
}

/// The broken drive of the record has level 2 where drop and strobe are swapped: there is no verdict then.
#[test]
fn swapped_names_are_an_error_that_shows_both() {
    let bench = Bench::new();
    let good = bench.judge(&bench.good());
    assert_eq!((good.status, good.line()), (0, "level 0 tested yes"));
    let swapped = bench.swapped();
    let text = &bench.text;
    let expected = format!(
        "{text} and {swapped} do not mean the same signals:\n  \
         signal 1  drop in {text}, strobe in {swapped}\n  \
         signal 2  strobe in {text}, drop in {swapped}\n\
         kit record --names FILE.txt gives each signal the number that the text declares for its name\n"
    );
    let output = bench.folder.path("x.svg");
    for words in [
        vec!["judge", text, &swapped],
        vec!["judge", text, &swapped, "--json"],
        vec!["picture", text, &swapped, "-o", &output],
    ] {
        let ran = kit(&words);
        assert_eq!((ran.status, ran.out.as_str()), (4, ""), "{words:?}");
        assert_eq!(ran.err, format!("kit {}: {expected}", words[0]));
    }
    assert!(!bench.folder.join("x.svg").exists());
    // shown with its numbers, and then why the names are not trusted
    let ran = kit(["show", &swapped, "--names", text]);
    assert_eq!((ran.status, ran.err), (4, format!("kit show: {expected}")));
    assert!(
        ran.out
            .starts_with("4 samples\nsample 0  0x0  -\nsample 1  0x1  s0\n"),
        "{}",
        ran.out
    );
}

#[test]
fn a_batch_names_what_does_not_fit_and_goes_on() {
    let bench = Bench::new();
    let (good, swapped) = (bench.good(), bench.swapped());
    let changed = bench.record("changed.svw", "ack=ack,drop=drop,strobe=strobe");
    fs::write(&changed, record(&[0, 1, 4])).unwrap();
    let ran = kit(["batch", &bench.text, &good, &swapped, &changed, "--list"]);
    assert_eq!(ran.status, 4);
    for line in [
        format!("{good}: level 0 tested yes"),
        format!(
            "mismatched  {swapped}: signal 1 is drop in the assertion, strobe in the record; signal 2 is strobe in \
             the assertion, drop in the record"
        ),
        format!("broken  {good}"),
    ] {
        assert!(ran.out.lines().any(|known| known == line), "{line}: {}", ran.out);
    }
    let begins =
        format!("mismatched  {changed}: changed since kit record wrote it, or the writing was cut off: its SHA-256 is ");
    assert!(ran.out.contains(&begins), "{}", ran.out);
    let row: Vec<&str> = ran
        .out
        .lines()
        .filter(|line| line.starts_with("mismatched  "))
        .collect();
    assert!(row[0].ends_with(
        "2  what stands beside them speaks of other signals, of other bytes, or cannot be read"
    ));
    assert!(
        ran.err
            .contains("kit batch: 2 of 3 were not judged, since the file beside them"),
        "{}",
        ran.err
    );
    assert!(!ran.out.contains("names not known") && !ran.out.contains("passed over"));
}

#[test]
fn a_record_without_names_is_judged_and_it_is_said() {
    let bench = Bench::new();
    let path = bench.folder.file("bare.svw", record(&[0, 1, 2]));
    let ran = bench.judge(&path);
    assert_eq!((ran.status, ran.line()), (0, "level 0 tested yes"));
    let text = &bench.text;
    let line = format!(
        "\nNames: those of {text}; not known of the record, for there is no {path}.json.\n"
    );
    assert!(ran.out.contains(&line), "{}", ran.out);
    let json = kit(["judge", &bench.text, &path, "--json"]).out;
    assert!(
        json.contains(r#""names":"text","samples":3,"times":[],"#),
        "{json}"
    );
    assert!(json.contains(r#""recorded":null,"#), "{json}");
    let ran = kit(["batch", &bench.text, &path]);
    let row = ran
        .out
        .lines()
        .find(|line| line.starts_with("names not known"));
    let words = "1  of 1 judged: nothing says that their signals are the table's";
    assert!(row.is_some_and(|row| row.ends_with(words)), "{}", ran.out);
}

#[test]
fn a_changed_record_is_noticed() {
    let bench = Bench::new();
    let path = bench.good();
    fs::write(&path, record(&[0, 1, 4, 0])).unwrap();
    let ran = bench.judge(&path);
    assert_eq!((ran.status, ran.out.as_str()), (4, ""));
    let begins = format!("kit judge: {path}: changed since kit record wrote it, or the writing was cut off: its SHA-256 is ");
    let ends = format!(
        ", and {path}.json says {}; write it again, or take {path}.json away to go on with no names known\n",
        RECORD_SHA
    );
    assert!(
        ran.err.starts_with(&begins) && ran.err.ends_with(&ends),
        "{}",
        ran.err
    );
    // a torn one is refused first, with its number
    fs::write(&path, &record(&[0, 1, 4, 0])[..20]).unwrap();
    let ran = bench.judge(&path);
    assert_eq!((ran.status, ran.line()), (3, "refused 5 at 0"));
}

/// Whatever stands beside a record, it is taken whole or told.
#[test]
fn a_damaged_file_beside_a_record_is_told() {
    let bench = Bench::new();
    let path = bench.good();
    let beside = format!("{path}.json");
    let good = fs::read_to_string(&beside).unwrap();
    let damaged = [
        (
            "".to_string(),
            "EOF while parsing a value at line 1 column 0",
        ),
        (good[..good.len() / 2].to_string(), "EOF while parsing"),
        ("[]".to_string(), "invalid length 0"),
        (
            good.replace("kit record", "kit table"),
            "its written_by is not kit record",
        ),
        (
            good.replace("\"number\": 2", "\"number\": 64"),
            "signal 64 is above 63",
        ),
        (
            good.replace("\"number\": 2", "\"number\": 1"),
            "signal 1 is already named drop",
        ),
        (
            good.replace("\"number\": 2", "\"number\": 300"),
            "invalid value",
        ),
        (
            good.replace("\"strobe\"", "\"drop\""),
            "the name drop is declared twice",
        ),
        (
            good.replace("\"strobe\"", "\"a b\""),
            "'a b' is no name of a signal",
        ),
        (
            good.replace("\"5 ns\"", "\"\\u001b[2J\""),
            "a text in it has characters that cannot be seen",
        ),
        (
            good.replace("    \"5 ns\",\n", ""),
            "it has not one time for each sample",
        ),
        ("x".repeat(1 << 21), "it is longer than a mebibyte"),
    ];
    for (bytes, why) in damaged {
        fs::write(&beside, bytes).unwrap();
        for words in [
            vec!["judge", &bench.text, &path],
            vec!["batch", &bench.text, &path],
        ] {
            let ran = kit(&words);
            let said = format!("{}{}", ran.out, ran.err);
            let told = format!("{beside}: not what kit record writes beside a record: {why}");
            assert!(ran.status == 4 && said.contains(&told), "{why}: {said}");
        }
    }
    fs::remove_file(&beside).unwrap();
    fs::create_dir(&beside).unwrap();
    let ran = bench.judge(&path);
    let told = format!("kit judge: {beside}: this is a folder, not a file\n");
    assert_eq!((ran.status, ran.err), (4, told));
}

#[test]
fn a_table_has_names_too() {
    let bench = Bench::new();
    let table = bench.folder.path("flush.svt");
    assert_eq!(kit(["table", &bench.text, "-o", &table]).status, 0);
    let beside = fs::read_to_string(format!("{table}.json")).unwrap();
    for part in [
        r#""written_by": "kit table""#,
        r#""file": "flush.txt""#,
        "\"number\": 1,\n      \"name\": \"drop\"",
    ] {
        assert!(beside.contains(part), "{beside}");
    }
    let shown = kit(["show", &table]).out;
    assert!(
        shown.contains("always (ack |-> strong((!drop)[*1:$] ##0 strobe))"),
        "{shown}"
    );
    let ran = kit(["judge", &table, &bench.good()]);
    assert!(
        ran.out
            .contains("\nNames: those of flush.txt, and the record has the same.\n"),
        "{}",
        ran.out
    );
    let ran = kit(["judge", &table, &bench.swapped()]);
    assert_eq!((ran.status, ran.out.as_str()), (4, ""));
    let ran = kit(["batch", &table, &bench.swapped()]);
    assert!(
        ran.status == 4 && ran.out.contains("\nmismatched "),
        "{}",
        ran.out
    );
    // what names no signal speaks for none
    let empty =
        beside.split("  \"signals\"").next().unwrap().to_string() + "  \"signals\": []\n}\n";
    fs::write(format!("{table}.json"), &empty).unwrap();
    let ran = kit(["judge", &table, &bench.swapped()]);
    let told = "it does not name every signal that the table asks about";
    assert!(ran.status == 4 && ran.err.contains(told), "{}", ran.err);
    fs::write(format!("{table}.json"), &beside).unwrap();
    // another text's names, that are not the table's
    let other = bench
        .folder
        .file("other.txt", "signals ack=0 strobe=1 drop=2\n");
    let ran = kit(["judge", &table, &bench.good(), "--names", &other]);
    let told = format!("kit judge: {table} and {other} do not mean the same signals:\n");
    assert!(ran.status == 4 && ran.err.starts_with(&told), "{}", ran.err);
    // and a table that was changed, which is still accepted
    let mut bytes = fs::read(&table).unwrap();
    let place = bytes.iter().rposition(|byte| *byte == 44).unwrap();
    bytes[place] = 45;
    fs::write(&table, bytes).unwrap();
    let ran = kit(["show", &table]);
    let told = format!(
        "kit show: {table}: changed since kit table wrote it, or the writing was cut off: "
    );
    assert!(ran.status == 4 && ran.err.starts_with(&told), "{}", ran.err);
}

/// A table without names is judged with those of the record, and it must ask about recorded signals.
#[test]
fn the_names_of_a_record_do_for_a_table_that_has_none() {
    let bench = Bench::new();
    let ran = kit(["judge", &example("flush.svt"), &bench.good()]);
    assert!(ran
        .out
        .contains("\nAssertion: always (ack |-> strong((!drop)[*1:$] ##0 strobe))\n"));
    let line = format!(
        "\nNames: the record's; {} has none, so nothing says that it means these signals.\n",
        example("flush.svt")
    );
    assert!(ran.out.contains(&line), "{}", ran.out);
    let ran = kit(["batch", &example("flush.svt"), &bench.good()]);
    let row = ran
        .out
        .lines()
        .find(|line| line.starts_with("names not known"));
    assert!(
        row.is_some_and(|row| row.contains("  1  of 1 judged: ")),
        "{}",
        ran.out
    );
    let two = bench.record("two.svw", "ack=ack,drop=drop");
    // one that is not judged is none of those either
    let ran = kit(["batch", &example("flush.svt"), &two]);
    assert!(
        ran.out.contains("\nmismatched  ") && !ran.out.contains("names not known"),
        "{}",
        ran.out
    );
    let ran = kit(["judge", &example("flush.svt"), &two]);
    let line = format!(
        "\n  signal 2  without a name in {}, not there in {two}\n",
        example("flush.svt")
    );
    assert!(ran.status == 4 && ran.err.contains(&line), "{}", ran.err);
    // what a text declares and the assertion does not ask about need not be there
    let text = bench.folder.file(
        "less.txt",
        "signals ack=0 drop=1 strobe=2 busy=3\nalways weak(ack | drop)\n",
    );
    assert_eq!(kit(["judge", &text, &two]).status, 0);
    // but where it is, it has that name
    let text = bench
        .folder
        .file("more.txt", "signals ack=0 busy=1\nalways weak(ack)\n");
    let ran = kit(["judge", &text, &two]);
    let line = format!("\n  signal 1  busy in {text}, drop in {two}\n");
    assert!(ran.status == 4 && ran.err.contains(&line), "{}", ran.err);
}

/// A verdict tells its files, by the digests that sha256sum gives.
#[test]
fn a_verdict_tells_what_it_is_of() {
    let bench = Bench::new();
    let path = bench.good();
    let ran = bench.judge(&path);
    let (_, files) = ran.out.split_once("\nTable: ").unwrap();
    let lines: Vec<&str> = files.lines().collect();
    let version = env!("CARGO_PKG_VERSION");
    let text = &bench.text;
    assert_eq!(
        lines[1..],
        [
            format!("Record: {path}, SHA-256 {}.", RECORD_SHA),
            format!("Waveform: lost.vcd, SHA-256 {}.", WAVE_SHA),
            "Signals: 0 ack from top.ack, 1 drop from top.drop, 2 strobe from top.strobe."
                .to_string(),
            "Times: 5 ns, 15 ns, 25 ns, 35 ns.".to_string(),
            format!("Names: those of {text}, and the record has the same."),
            format!("Kit: {version}; the record was made by {version}."),
        ]
    );
    for said in [
        "\nClosed at sample 2 (25 ns): a longer record never overturns it.\n",
        ", asked from sample 1 (15 ns): broken at sample 2 (25 ns), for it can no longer match.\n",
    ] {
        assert!(ran.out.contains(said), "{}", ran.out);
    }
    let json = kit(["judge", text, &path, "--json"]).out;
    for part in [
        r#""names":"agreed","samples":4,"times":["5 ns","15 ns","25 ns","35 ns"],"#.to_string(),
        format!(r#""record":{{"file":"{path}","sha256":"{}"}},"#, RECORD_SHA),
        format!(
            r#""waveform":{{"file":"lost.vcd","sha256":"{}"}},"#,
            WAVE_SHA
        ),
        r#"{"number":2,"name":"strobe","from":"top.strobe"}],"options":["#.to_string(),
        format!(r#""kit":"{version}"}},"kit":"{version}"}}"#),
    ] {
        assert!(json.contains(&part), "{part}: {json}");
    }
}

/// A signal that is the same in every sample says so, and the clock is no signal.
#[test]
fn what_is_no_bit_of_the_waveform_is_told() {
    let bench = Bench::new();
    let output = bench.folder.path("c.svw");
    let words = [
        "--signals",
        "ack=ack,drop=0,strobe=1",
        "--on",
        "posedge ack",
    ];
    let words = [&["record", &bench.wave][..], &words, &["-o", &output]].concat();
    assert_eq!(kit(&words).status, 0);
    let shown = kit(["show", &output]).out;
    let expected = "1 sample, at 10 ns, recorded from lost.vcd\n\
                    signal 0  ack     top.ack\nsignal 1  drop    0 in every sample\n\
                    signal 2  strobe  1 in every sample\nsample 0  10 ns  0x4  strobe\n";
    assert_eq!(shown, expected);
}

/// A text that does not name all that is asked about says nothing of the rest, so it agrees with no record.
#[test]
fn a_text_that_leaves_signals_out_does_not_agree() {
    let bench = Bench::new();
    let (table, swapped) = (example("flush.svt"), bench.swapped());
    for (declared, line) in [
        ("signals ack=0\n", "  signal 1  without a name in "),
        ("signals x=9\n", "  signal 0  without a name in "),
        (
            "signals ack=0 drop=3 strobe=4\n",
            "  signal 1  without a name in ",
        ),
    ] {
        let names = bench.folder.file("part.txt", declared);
        let ran = kit(["judge", &table, &swapped, "--names", &names]);
        assert_eq!((ran.status, ran.out.as_str()), (4, ""), "{declared}");
        assert!(ran.err.contains(line), "{}", ran.err);
        let ran = kit(["batch", &table, &swapped, "--names", &names]);
        assert!(
            ran.status == 4 && ran.out.contains("\nmismatched "),
            "{}",
            ran.out
        );
        // a record whose names are not known is judged as before
        let bare = bench.folder.file("bare.svw", record(&[0, 1, 2]));
        assert_eq!(kit(["judge", &table, &bare, "--names", &names]).status, 0);
    }
}

/// What a script can ask for: that both sides have names, and that they agree.
#[test]
fn named_asks_for_names_that_agree() {
    let bench = Bench::new();
    let bare = bench.folder.file("bare.svw", record(&[0, 1, 4]));
    let good = bench.good();
    for (table, record, status) in [
        (&bench.text, &good, 0),
        (&bench.text, &bare, 1),
        (&example("flush.svt"), &good, 1),
    ] {
        let ran = kit(["judge", table, record, "--require", "0", "--named"]);
        let line = match status {
            0 => "\nRequired named: reached.\n",
            _ => "\nRequired named: not reached.\n",
        };
        assert!(
            ran.status == status && ran.out.contains(line),
            "{}",
            ran.out
        );
        let json = kit(["judge", table, record, "--named", "--json"]).out;
        let reached = format!(r#""named":true,"reached":{}}}"#, status == 0);
        assert!(json.contains(&reached), "{json}");
        let ran = kit(["batch", table, record, "--require", "0", "--named"]);
        assert_eq!(ran.status, status, "{}", ran.out);
        let missed = ran.out.contains(&format!("\nmissed  {record}: level "));
        assert_eq!(missed, status == 1, "{}", ran.out);
        assert!(
            ran.out.contains("level 0 or more and names agreed\n"),
            "{}",
            ran.out
        );
    }
}

/// A link has no names of its own, so those of the file that it leads to count.
#[test]
fn a_link_does_not_lose_the_names() {
    let bench = Bench::new();
    let link = bench.folder.path("link.svw");
    std::os::unix::fs::symlink(bench.swapped(), &link).unwrap();
    let ran = bench.judge(&link);
    assert!(
        ran.status == 4 && ran.err.contains("do not mean the same signals"),
        "{ran:?}"
    );
}

/// A signal that the text declares and the record does not have is not drawn as if it were 0.
#[test]
fn a_picture_shows_what_was_recorded() {
    let bench = Bench::new();
    let text = bench
        .folder
        .file("more.txt", format!("signals later=9\n{}", &FLUSH[11..]));
    let output = bench.folder.path("x.svg");
    assert_eq!(
        kit(["picture", &text, &bench.good(), "-o", &output]).status,
        0
    );
    let svg = fs::read_to_string(&output).unwrap();
    assert!(svg.contains(">strobe</text>") && !svg.contains(">later</text>"));
    let bare = bench.folder.file("bare.svw", record(&[0, 1, 2]));
    assert_eq!(kit(["picture", &text, &bare, "-o", &output]).status, 0);
    assert!(fs::read_to_string(&output)
        .unwrap()
        .contains(">later</text>"));
}
