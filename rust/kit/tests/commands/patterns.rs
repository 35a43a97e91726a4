//! docs/PATTERNS.md and the examples of docs/FORMAT.md: each assertion on each record has the level that the
//! page says. The levels of the pages are worked out by hand from the meaning.
use crate::support::{kit, put, record, Folder, Ran};

const PATTERNS: &str = include_str!("../../../../docs/PATTERNS.md");
const FORMAT: &str = include_str!("../../../../docs/FORMAT.md");

/// What stands between a block of assertions and the next: the block and the table below it.
#[derive(Default)]
struct Pattern<'a> {
    title: &'a str,
    /// The signals and the names that `let` gives.
    declared: Vec<&'a str>,
    /// Each assertion by its letter.
    assertions: Vec<(&'a str, &'a str)>,
    /// The situation, the samples, and a level for each assertion.
    rows: Vec<(&'a str, &'a str, Vec<&'a str>)>,
}

/// The cells of a row of a table.
fn cells(line: &str) -> Vec<&str> {
    let inner = line.trim().trim_start_matches('|').trim_end_matches('|');
    inner.split(" | ").map(str::trim).collect()
}

/// The patterns of a part of the page.
fn patterns(part: &str) -> Vec<Pattern<'_>> {
    let mut found: Vec<Pattern> = Vec::new();
    let (mut title, mut letters) = ("", Vec::new());
    for line in part.lines().filter(|line| !line.starts_with("|---")) {
        if let Some(words) = line.strip_prefix("### ") {
            (title, letters) = (words, Vec::new());
        } else if let Some(code) = line.strip_prefix("    ") {
            if code.starts_with("signals ") {
                letters = Vec::new();
                let pattern = Pattern::default();
                found.push(Pattern { title, ..pattern });
            }
            let pattern = found.last_mut().expect("a block begins with its signals");
            match code.split_once("  ") {
                Some((letter, text)) => pattern.assertions.push((letter, text)),
                None => pattern.declared.push(code),
            }
        } else if line.starts_with("| at the record's end | samples | ") {
            letters = cells(line).split_off(2);
        } else if line.starts_with('|') && !letters.is_empty() {
            let pattern = found.last_mut().expect("a table is below its block");
            let named: Vec<&str> = pattern
                .assertions
                .iter()
                .map(|(letter, _)| *letter)
                .collect();
            assert_eq!(letters, named, "{title}");
            let mut row = cells(line);
            let levels = row.split_off(2);
            assert_eq!(levels.len(), letters.len(), "{title}: {line}");
            pattern
                .rows
                .push((row[0], row[1].trim_matches('`'), levels));
        }
    }
    found
}

/// The samples of a row: names of signals, in the order of their numbers.
fn samples(text: &str, declared: &[&str]) -> Vec<u64> {
    if text == "none" {
        return Vec::new();
    }
    let names: Vec<&str> = declared[0].split(' ').skip(1).collect();
    let number = |name: &str| -> u32 {
        let mut found = names.iter().filter_map(|signal| signal.split_once('='));
        let found = found.find(|(known, _)| *known == name);
        found.expect("a declared signal").1.parse().unwrap()
    };
    let sample = |names: &str| match names {
        "-" => 0,
        _ => names.split(' ').map(|name| 1 << number(name)).sum(),
    };
    text.split(", ").map(sample).collect()
}

/// What the kit says of an assertion on a record, by both engines.
fn judged(folder: &Folder, declared: &[&str], assertion: &str, samples: &[u64]) -> Ran {
    let (text, samples) = (
        format!("{}\n\n{assertion}\n", declared.join("\n")),
        record(samples),
    );
    put(&folder.join("t.txt"), text.as_bytes());
    put(&folder.join("r.svw"), &samples);
    let ran = kit([
        "judge",
        &folder.path("t.txt"),
        &folder.path("r.svw"),
        "--once",
        "--require=0",
    ]);
    assert_eq!((ran.status, ran.err.as_str()), (0, ""), "{assertion}");
    let alone = "Judged by the plain engine alone";
    assert!(!ran.out.contains(alone), "{assertion}");
    ran
}

/// Judges every record of a pattern by each of its assertions.
fn check(pattern: &Pattern) {
    let folder = Folder::new();
    let Pattern {
        title,
        declared,
        assertions,
        rows,
    } = pattern;
    for (situation, text, levels) in rows {
        let samples = samples(text, declared);
        for ((letter, assertion), level) in assertions.iter().zip(levels) {
            let ran = judged(&folder, declared, assertion, &samples);
            let place = format!("{title}, {letter}: {situation}");
            let begins = format!("level {level} tested ");
            assert!(ran.line().starts_with(&begins), "{place}: {}", ran.line());
            let implies = assertion.contains("|->") || assertion.contains("|=>");
            let never = ran.out.contains("\nNever asked: ");
            if implies && situation.starts_with("never asked") {
                assert!(never, "{place}: it was asked");
            } else if situation.starts_with("answered") || situation.starts_with("broken") {
                assert!(!never, "{place}: it was never asked");
            }
        }
    }
}

/// The part of the page below a heading.
fn part(title: &str) -> &'static str {
    let begin = PATTERNS.find(&format!("\n## {title}\n")).expect("the part");
    let part = &PATTERNS[begin + 1..];
    part.find("\n## ").map_or(part, |end| &part[..end])
}

#[test]
fn every_pattern_has_the_levels_of_the_page() {
    let found = patterns(part("Each with its levels"));
    let titles: Vec<&str> = found.iter().map(|pattern| pattern.title).collect();
    let wanted = [
        "Handshake",
        "Answer within N samples",
        "Never twice",
        "Hold until",
        "After the drop nothing",
        "Order",
        "Stable while",
        "At most N samples",
        "A durable flush",
    ];
    assert_eq!(titles, wanted);
    for pattern in found {
        for situation in ["answered", "waiting", "broken", "never asked"] {
            let mut rows = pattern.rows.iter();
            let told = rows.any(|(told, ..)| told.starts_with(situation));
            assert!(told, "{}: no row for {situation}", pattern.title);
        }
        check(&pattern);
    }
}

#[test]
fn what_changes_a_pattern_has_the_levels_of_the_page() {
    let found = patterns(part("What changes it"));
    assert_eq!(found.len(), 5);
    for pattern in found {
        assert!(pattern.rows.len() >= 3, "{}", pattern.title);
        check(&pattern);
    }
}

/// Operators 41 to 47 and what docs/FORMAT.md says that they are, on every record of two signals up to three
/// samples.
#[test]
fn derived_properties_are_what_the_page_says() {
    let folder = Folder::new();
    let declared = ["signals a=0 b=1"];
    let (_, rows) = FORMAT.split_once("\n## Derived operators\n").unwrap();
    let mut records = vec![Vec::new()];
    for count in 0..3 {
        let last: Vec<Vec<u64>> = records
            .iter()
            .filter(|r| r.len() == count)
            .cloned()
            .collect();
        let longer = |record: &Vec<u64>, next| [&record[..], &[next]].concat();
        records.extend(
            last.iter()
                .flat_map(|r| (0..4).map(move |next| longer(r, next))),
        );
    }
    assert_eq!(records.len(), 1 + 4 + 16 + 64);
    let meant = |text: &str| {
        let parts = [("R", "a"), ("P", "strong(b)"), ("Q", "strong(a & b)")];
        let text = text.trim_matches('`').replace('¦', "|");
        parts
            .iter()
            .fold(text, |text, (name, part)| text.replace(name, part))
    };
    for number in 41..=47 {
        let mut rows = rows.lines();
        let row = rows
            .find(|line| line.starts_with(&format!("| {number} | ")))
            .unwrap();
        let row = row.replace("\\|", "¦");
        let cells = cells(&row);
        let (operator, defined) = (meant(cells[1]), meant(cells[2]));
        for record in &records {
            let said = judged(&folder, &declared, &operator, record);
            let wanted = judged(&folder, &declared, &defined, record);
            assert_eq!(said.line(), wanted.line(), "{operator} on {record:?}");
        }
    }
}

/// P1 to P11, as docs/FORMAT.md has them.
#[test]
fn the_examples_have_the_levels_of_the_page() {
    let folder = Folder::new();
    let names: Vec<String> = (1..=11).map(|number| format!("| P{number} | ")).collect();
    let row = |line: &&str| names.iter().any(|name| line.starts_with(name));
    let mut count = 0;
    for line in FORMAT.lines().filter(row) {
        let line = line.replace("\\|", "¦");
        let cells = cells(&line);
        let assertion = cells[1].trim_matches('`').replace('¦', "|");
        let samples: Vec<u64> = match cells[2] {
            "none" => Vec::new(),
            samples => samples.split(", ").map(|n| n.parse().unwrap()).collect(),
        };
        count += 1;
        assert_eq!(cells[0], format!("P{count}"));
        let ran = judged(&folder, &["signals a=0 b=1 c=2"], &assertion, &samples);
        let begins = format!("level {} tested yes", cells[3]);
        assert_eq!(ran.line(), begins, "{}", cells[0]);
    }
    assert_eq!(count, 11);
}
