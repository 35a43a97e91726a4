//! Everything occurs often enough, among random cases and among those stored.

use super::counts::Counts;
use crate::node::{is_derived, OPERATORS};
use crate::{answer, answer_text, parse_case, random_case};

const SEEDS: u64 = 16_000;

/// The refusals of each entry point, and its acceptance.
const NUMBERS: [(&str, &[u8]); 8] = [
    ("check", &[0, 1, 2, 3, 4, 5, 6, 7, 8, 9]),
    ("read", &[0, 1, 2, 3, 5, 10, 15]),
    ("expand", &[0, 1, 2, 3, 4, 5, 6, 7, 8, 9, 13, 15]),
    ("rewrite", &[0, 1, 2, 3, 4, 5, 6, 7, 8, 9, 13, 15]),
    ("judge", &[0, 1, 2, 3, 4, 5, 6, 7, 8, 9, 10, 11, 12, 13]),
    ("plain", &[0, 1, 2, 3, 4, 5, 6, 7, 8, 9, 10, 12, 13]),
    ("ends", &[0, 1, 2, 3, 4, 5, 6, 7, 8, 9, 10, 11, 12, 13, 14]),
    ("program", &[0, 1, 2, 3, 4, 5, 6, 7, 8, 9, 10, 12, 13]),
];

/// The refusals of versions and nodes that version 2 is about.
const FAULTS: [&str; 11] = [
    "table of version 0",
    "table of version 4",
    "table of version 257",
    "table of version 258",
    "table of version 512",
    "record of version 2",
    "operator in version 1",
    "operator between 7 and 15",
    "operator of no signal",
    "operator with y",
    "operator with a fourth byte",
];

/// How tables use risen and fallen signals, and what the signals do.
const USES: [&str; 18] = [
    "risen of 0",
    "risen of 63",
    "not risen",
    "clock risen",
    "risen shared",
    "risen high at first",
    "risen rises later",
    "risen stays high",
    "risen falls",
    "fallen of 0",
    "fallen of 63",
    "not fallen",
    "clock fallen",
    "fallen shared",
    "fallen high at first",
    "fallen rises later",
    "fallen stays high",
    "fallen falls",
];

/// What expanding is about: the versions that it copies, refusals of versions and
/// of the fourth byte, 9 by each operator that can give it, and the limit of 13.
const EXPANDED: [&str; 18] = [
    "expander copies version 1",
    "expander copies version 2",
    "expander's table of version 0",
    "expander's table of version 4",
    "expander's table of version 259",
    "expander's table of version 768",
    "operator derived in an older version",
    "operator 23 with a wrong fourth byte",
    "operator 24 with a wrong fourth byte",
    "operator 25 with a wrong fourth byte",
    "operator 26 with a wrong fourth byte",
    "hollow 32",
    "hollow 33",
    "hollow 37",
    "hollow 41",
    "hollow 42",
    "hollow 43",
    "expanded 120",
];

const FLAGS: [&str; 4] = ["tested true", "tested false", "top true", "top false"];

/// What the plain judge says of tables whose rewriting has too many nodes.
const PAST: [&str; 6] = [
    "past level 0",
    "past level 1",
    "past level 2",
    "past level 3",
    "past tested true",
    "past tested false",
];

/// A name with each of some numbers.
fn each<T: ToString>(name: &str, numbers: impl IntoIterator<Item = T>) -> Vec<String> {
    let named = |number: T| format!("{name} {}", number.to_string());
    numbers.into_iter().map(named).collect()
}

/// `|->`, nexttime and until below the root, with a clock and with none, in
/// tables that are tested and in tables that are not.
fn inner() -> Vec<String> {
    let operators = ["inner 37", "inner 38", "inner 39"];
    let clocks = ["with no clock, tested", "with a clock, tested"];
    let named = operators.iter().flat_map(|name| each(name, clocks));
    named.flat_map(|name| each(&name, [true, false])).collect()
}

/// Asserts that accepted tables have each operator so often, and each derived one.
fn operators_occur(counts: &Counts, base: usize, derived: usize) {
    for operator in OPERATORS {
        let least = if is_derived(operator) { derived } else { base };
        counts.at_least(least, each("operator", [operator]));
    }
}

/// Asserts that accepted tables are of each version about as often; for the
/// expander more are of version 3.
fn versions_are_even(counts: &Counts) {
    let [one, two, three] = [1, 2, 3].map(|version| counts.of(&format!("version {version}")));
    let share = two * 100 / (one + two);
    assert!((47..=53).contains(&share), "{share} % of version 2");
    assert!(three > two && three < 2 * two, "{three} of version 3");
}

#[test]
fn everything_occurs() {
    let counts = Counts::over((0..SEEDS).map(random_case));
    println!("{counts:#?}");
    for (kind, numbers) in NUMBERS {
        counts.at_least(500, [format!("case {kind}")]);
        counts.at_least(1, each(kind, numbers));
    }
    counts.at_least(40, each("number", 0..=15));
    operators_occur(&counts, 300, 50);
    counts.at_least(1, EXPANDED);
    counts.at_least(5, ["expanded 121"]);
    counts.at_least(250, each("level", 0..=3));
    counts.at_least(60, each("mask", 0..=3));
    counts.at_least(2, each("m", 100..=120));
    counts.at_least(200, FLAGS);
    counts.at_least(50, inner());
    counts.at_least(200, ["n 0"]);
    counts.at_least(50, ["n 63"]);
    counts.at_least(20, ["m 121"]);
    counts.at_least(30, ["large"]);
    counts.at_least(10, ["long input"]);
    counts.at_least(50, PAST);
    counts.at_least(100, ["past by 100"]);
    counts.at_least(200, USES);
    counts.at_least(3, FAULTS);
    versions_are_even(&counts);
    let accepted = counts.of("number 0") * 100 / SEEDS as usize;
    assert!((60..=66).contains(&accepted), "{accepted} % accepted");
}

/// A file of the stored cases.
fn stored_file(name: &str) -> String {
    let folder = concat!(env!("CARGO_MANIFEST_DIR"), "/../../crates/opinion");
    std::fs::read_to_string(format!("{folder}/{name}")).expect("a stored file")
}

#[test]
fn everything_is_stored() {
    let (cases, answers) = (stored_file("stdin"), stored_file("stdout"));
    let read = |line| parse_case(line).expect("a good line");
    for (line, said) in cases.lines().zip(answers.lines()) {
        let (label, case) = read(line);
        assert_eq!(answer_text(label, &answer(&case)), said);
    }
    let counts = Counts::over(cases.lines().map(|line| read(line).1));
    for (kind, numbers) in NUMBERS {
        counts.at_least(1, each(kind, numbers));
    }
    counts.at_least(20, each("number", 0..=15));
    operators_occur(&counts, 100, 50);
    counts.at_least(1, EXPANDED);
    counts.at_least(11, ["expanded 120", "expanded 121"]);
    counts.at_least(50, each("level", 0..=3));
    counts.at_least(50, FLAGS);
    counts.at_least(10, inner());
    counts.at_least(10, PAST);
    counts.at_least(10, ["past by 100"]);
    counts.at_least(20, USES);
    counts.at_least(1, FAULTS);
    versions_are_even(&counts);
}
