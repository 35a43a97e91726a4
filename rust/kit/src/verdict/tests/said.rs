//! What is said of a verdict in words.
use super::super::account::Account;
use super::super::words::{refusal_words, words};
use super::super::{ready, Refused, Stopped};
use super::{account, table};
use crate::assertion::Assertion;
use crate::engine::Engine;
use crate::names::Names;
use crate::notation::{self, phrase};
use crate::required::Required;
use std::path::Path;

fn names() -> Names {
    Names::of(&["ack", "strobe"])
}

pub fn told(nodes: &[[u8; 3]], samples: &[u64]) -> Account {
    account(&table(nodes), &names(), samples).unwrap()
}

/// A node of a table in the notation, under its clock.
fn part(nodes: &[[u8; 3]], index: usize) -> String {
    notation::part(
        &Assertion::of_table(&table(nodes)).unwrap(),
        index,
        &names(),
    )
}

fn whole(nodes: &[[u8; 3]]) -> String {
    let assertion = Assertion::of_table(&table(nodes)).unwrap();
    phrase(&assertion, assertion.root(), &names())
}

/// ack |-> strong(strobe ##1 strobe): nodes 2, 6, 7
pub const ASKED: [[u8; 3]; 8] = [
    [1, 0, 0],
    [1, 1, 0],
    [16, 0, 0],
    [16, 1, 0],
    [16, 1, 0],
    [17, 3, 4],
    [32, 5, 0],
    [37, 2, 6],
];

#[test]
fn the_parts_stand_in_the_notation() {
    assert_eq!(whole(&ASKED), "ack |-> strong(strobe ##1 strobe)");
    assert_eq!(part(&ASKED, 2), "ack");
    assert_eq!(part(&ASKED, 6), "strong(strobe ##1 strobe)");
}

/// What is said where `--once` is given and nothing is required.
fn said(nodes: &[[u8; 3]], samples: &[u64]) -> String {
    words(&told(nodes, samples), Required::default(), true)
}

/// The same of an assertion as text.
fn said_of(assertion: &str, samples: &[u64]) -> String {
    let read = notation::read(&format!("signals ack strobe\n{assertion}")).unwrap();
    let told = account(&read.assertion.table(), &read.names, samples).unwrap();
    words(&told, Required::default(), true)
}

#[test]
fn a_waiting_record_in_words() {
    let required = Required {
        level: Some(2),
        tested: true,
        asked: true,
        named: false,
    };
    let expected = format!(
        "level 1 tested yes\n\
         \n\
         Assertion: {0}\n\
         Level 1, weak: nothing is broken, and something is still awaited.\n\
         If nothing more came, the assertion would not have held.\n\
         Tested: the record put the assertion to the test.\n\
         Asked: {0}, reached from sample 0: its left side matched at sample 0.\n\
         Asked once: the whole assertion, at the first sample only. To ask at every sample, write\n  always ({0})\n\
         or say with --once that once is meant.\n\
         \n  sample  start   0\n  level       2   1\n\
         \n\
         Not closed: what comes next may still change it.\n\
         Decisive: {1}, asked from sample 0: still waiting for its match.\n\
         Once it is broken, so is the assertion.\n\
         Required 2: not reached.\n\
         Required tested: reached.\n\
         Required asked: reached.\n",
        whole(&ASKED),
        part(&ASKED, 6)
    );
    assert_eq!(words(&told(&ASKED, &[3]), required, false), expected);
}

#[test]
fn an_untested_record_in_words() {
    // No ack at sample 0, so that no match can come: held, and nothing was asked.
    let expected = format!(
        "level 3 tested no\n\
         \n\
         Assertion: {0}\n\
         Level 3, strong: the assertion held, whatever comes next.\n\
         Not tested: no strong and no weak of the assertion was reached.\n\
         Never asked: {0}, reached from sample 0: its left side never matched from there.\n\
         \n  sample  start   0   1\n  level       2   3   3\n\
         \n\
         Closed at sample 0: a longer record never overturns it.\n\
         Decisive: the whole assertion, asked from sample 0: held at sample 0, for its left \
         side can no longer match from there: nothing was asked.\n",
        whole(&ASKED)
    );
    assert_eq!(said(&ASKED, &[2, 0]), expected);
}

#[test]
fn an_untested_record_may_be_broken() {
    // without ack the |-> holds and asks nothing
    let text = said_of("not (ack |-> strong(strobe))", &[0]);
    assert!(text.starts_with("level 0 tested no\n"), "{text}");
    let untested =
        "\nNot tested: no strong and no weak of the assertion was reached.\nNever asked: ";
    assert!(text.contains(untested), "{text}");
}

#[test]
fn a_tested_record_says_what_was_never_asked() {
    let nested = "(ack |-> weak(ack)) and (strobe |-> ack |-> weak(strobe))";
    // ack and no strobe: the inner |-> on the right is never reached
    let text = said_of(nested, &[1]);
    let expected = "\nTested, but not every |-> was asked.\n\
                    Asked: ack |-> weak(ack), reached from sample 0: its left side matched at sample 0.\n\
                    Never asked: ack |-> weak(strobe): it was never reached.\n\
                    Never asked: strobe |-> ack |-> weak(strobe), reached from sample 0: its left side never \
                    matched from there.\n\n  sample";
    assert!(text.contains(expected), "{text}");
    // both, and every |-> is asked
    let text = said_of(nested, &[3]);
    let tested = "\nTested: the record put the assertion to the test.\nAsked: ";
    assert!(text.contains(tested), "{text}");
    assert!(!text.contains("Never asked"), "{text}");
}

#[test]
fn samples_are_named_in_ranges_and_the_end_by_its_name() {
    let text = said_of("(ack |-> weak(ack)) until strong(0)", &[1, 0, 1, 1, 0]);
    let expected =
        "\nAsked: ack |-> weak(ack), reached from samples 0 to 4: its left side matched at \
                    samples 0 and 2 to 3.\n";
    assert!(text.contains(expected), "{text}");
    // on one sample only the end is left
    let text = said_of("nexttime (ack |-> weak(ack))", &[1]);
    let expected =
        "\nNever asked: ack |-> weak(ack), reached from the end of the record: its left side \
                    never matched from there.\n";
    assert!(text.contains(expected), "{text}");
    // from the sample after each
    let text = said_of("1[*1:$] |-> nexttime (ack |-> weak(ack))", &[0, 0]);
    let expected =
        "\nNever asked: ack |-> weak(ack), reached from sample 1 and the end of the record: ";
    assert!(text.contains(expected), "{text}");
}

/// The sentences about the decisive part and all after it.
fn decisive(nodes: &[[u8; 3]], samples: &[u64]) -> String {
    let text = said(nodes, samples);
    let (_, found) = text.split_once("Decisive: ").unwrap();
    let (_, found) = found.split_once(", asked from ").unwrap();
    found.to_string()
}

#[test]
fn the_decisive_part_says_what_came_of_it() {
    assert_eq!(
        decisive(&ASKED, &[3, 2]),
        "sample 0: matched by samples 0 to 1.\n"
    );
    assert_eq!(
        decisive(&ASKED, &[3, 0, 3]),
        "sample 0: broken at sample 1, for it can no longer match.\n"
    );
    assert_eq!(
        decisive(&ASKED, &[]),
        "sample 0, which is still to come: held so far, for its left side has not matched from there \
         yet.\n"
    );
    let one = [[1, 0, 0], [16, 0, 0], [32, 1, 0]];
    assert_eq!(decisive(&one, &[1]), "sample 0: matched at sample 0.\n");
    let weak = [[1, 0, 0], [16, 0, 0], [16, 0, 0], [17, 1, 2], [33, 3, 0]];
    let open = "sample 0: it has not matched yet, and still can.\n";
    assert_eq!(decisive(&weak, &[1]), open);
}

/// ack[*1:$] |-> strong(strobe)
const EACH: [[u8; 3]; 7] = [
    [1, 0, 0],
    [1, 1, 0],
    [16, 0, 0],
    [21, 2, 0],
    [16, 1, 0],
    [32, 4, 0],
    [37, 3, 5],
];

#[test]
fn a_left_side_that_matched_asked_something() {
    // ack and strobe: a match at sample 0 that held, and a longer one may come
    assert_eq!(
        decisive(&EACH, &[3]),
        "sample 0: held so far; no match of its left side was broken, and one may still be.\n"
    );
    // two matches that held, and none after the sample without ack: 3, and the record closed there
    assert_eq!(
        decisive(&EACH, &[3, 3, 0]),
        "sample 0: held at sample 2; no match of its left side was broken, and none is still to come.\n"
    );
    // no ack at sample 0, whatever comes later
    assert_eq!(
        decisive(&EACH, &[0, 3]),
        "sample 0: held at sample 0, for its left side can no longer match from there: nothing was \
         asked.\n"
    );
}

#[test]
fn a_part_under_not_says_so() {
    // not strong(ack ##1 ack)
    let nodes = [
        [1, 0, 0],
        [16, 0, 0],
        [16, 0, 0],
        [17, 1, 2],
        [32, 3, 0],
        [34, 4, 0],
    ];
    assert_eq!(
        decisive(&nodes, &[1]),
        "sample 0: it has not matched yet, and still can.\n\
         It stands under not: once it holds for good, the assertion is broken.\n"
    );
    assert_eq!(
        decisive(&nodes, &[1, 1]),
        "sample 0: matched by samples 0 to 1.\n\
         It stands under not, so that it broke the assertion.\n"
    );
    assert_eq!(
        decisive(&nodes, &[1, 0]),
        "sample 0: broken at sample 1, for it can no longer match.\n\
         It stands under not, so that the assertion held.\n"
    );
}

/// The refusal of a table or a record.
pub fn refused(table: &[u8], record: &[u8]) -> Refused {
    match ready(Engine::Both, table, record) {
        Err(Stopped::Refused(refused)) => refused,
        other => panic!("this is no refusal: {other:?}"),
    }
}

#[test]
fn a_refusal_in_words() {
    // strong(ack[*0]) is refused with 9 at node 3, before the record, which is too short.
    let hollow = table(&[[1, 0, 0], [16, 0, 0], [20, 1, 0], [32, 2, 0]]);
    let refused = refused(&hollow, b"SVW");
    assert!(matches!(refused, Refused::Table(_)));
    let expected =
        "refused 9 at 3\n\nThe table is refused with number 9 at node 3: strong, weak or |-> \
                    over a sequence that matches no k letters ⊤, k at least 1.\n\
                    kit show hollow.svt shows the table.\n";
    let said = refusal_words(refused, Path::new("hollow.svt"), &hollow, "");
    assert_eq!(said, expected);
}
