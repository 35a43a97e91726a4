use super::*;
use crate::notation::Text;
use second::{random_case, Case};

fn read(assertion: &str) -> Text {
    notation::read(&format!("signals a b c d\n{assertion}")).unwrap()
}

fn once(assertion: &str) -> Option<Once> {
    let Text { names, assertion } = read(assertion);
    Once::of(&assertion, &names)
}

/// Asserts that the whole assertion is asked once, and what to write instead.
fn whole(assertion: &str, every: &str, instead: &str) {
    let once = once(assertion).unwrap();
    assert_eq!(once.parts, [""; 0], "{assertion}");
    assert_eq!((once.every, once.instead), (every, Ok(instead.to_string())));
}

/// Asserts which parts are asked once, and what to write instead.
fn parts(assertion: &str, every: &str, parts: &[&str], instead: &str) {
    let once = once(assertion).unwrap();
    assert_eq!(once.parts, parts, "{assertion}");
    assert_eq!((once.every, once.instead), (every, Ok(instead.to_string())));
}

#[test]
fn what_is_not_asked_again_is_asked_once() {
    whole("strong(a)", "sample", "always strong(a)");
    whole("a |-> weak(b)", "sample", "always (a |-> weak(b))");
    whole("a |=> weak(b)", "sample", "always (a |=> weak(b))");
    whole("a #-# weak(b)", "sample", "always (a #-# weak(b))");
    whole("not weak(a)", "sample", "always not weak(a)");
    whole("s_nexttime weak(a)", "sample", "always s_nexttime weak(a)");
    whole("nexttime strong(a)", "sample", "always nexttime strong(a)");
    // an until below a |-> is asked where the |-> is
    whole(
        "a |-> (strong(b) until strong(0))",
        "sample",
        "always (a |-> (strong(b) until strong(0)))",
    );
    whole(
        "strong(a) and (b |-> weak(c))",
        "sample",
        "always (strong(a) and (b |-> weak(c)))",
    );
}

#[test]
fn always_stands_below_the_clocks() {
    whole(
        "@(c) (a |-> strong(b))",
        "tick",
        "@(c) always (a |-> strong(b))",
    );
    whole(
        "@(c) @(d) strong(a)",
        "tick",
        "@(c) (@(d) always strong(a))",
    );
    parts(
        "(@(c) strong(a)) and (@(d) weak(b))",
        "tick",
        &["@(c) strong(a)", "@(d) weak(b)"],
        "(@(c) always strong(a)) and (@(d) always weak(b))",
    );
    parts(
        "strong(a) and (@(d) weak(b))",
        "sample or tick",
        &["strong(a)", "@(d) weak(b)"],
        "(always strong(a)) and (@(d) always weak(b))",
    );
}

#[test]
fn what_is_asked_again_is_not_asked_once() {
    for assertion in [
        "(a |-> strong(b)) until strong(0)",
        "always (a |=> strong(b))",
        "s_eventually strong(b)",
        "nexttime (strong(a) s_until strong(b))",
        "@(c) ((a |-> strong(b)) until strong(d))",
        "not (strong(a) until weak(b))",
        "nexttime (strong(a) until weak(b))",
        "(strong(a) until strong(0)) or @(c) (weak(b) until strong(0))",
        // a sequence is no property
        "a ##1 b",
        "@(c) a",
    ] {
        assert_eq!(once(assertion), None, "{assertion}");
    }
}

#[test]
fn a_part_is_named_where_the_rest_is_asked_again() {
    parts(
        "(a |-> strong(b)) and ((b |-> weak(c)) until strong(0))",
        "sample",
        &["a |-> strong(b)"],
        "(always (a |-> strong(b))) and ((b |-> weak(c)) until strong(0))",
    );
    parts(
        "@(d) ((strong(a) until strong(b)) and weak(c) and strong(b))",
        "tick",
        &["@(d) weak(c)", "@(d) strong(b)"],
        "@(d) ((strong(a) until strong(b)) and (always weak(c)) and (always strong(b)))",
    );
}

/// `not` and `or` are asked as a whole: an always below them would ask something else.
#[test]
fn what_is_no_and_is_not_divided() {
    whole(
        "strong(a) or (strong(b) until strong(c))",
        "sample",
        "always (strong(a) or (strong(b) until strong(c)))",
    );
    whole(
        "not (strong(a) and (strong(b) until strong(c)))",
        "sample",
        "always not (strong(a) and (strong(b) until strong(c)))",
    );
}

#[test]
fn the_words_say_what_to_write() {
    let words = |assertion: &str| once(assertion).unwrap().words();
    assert_eq!(
        words("@(c) strong(a)"),
        "Asked once: the whole assertion, at the first sample only. To ask at every tick, write\n\
         \x20 @(c) always strong(a)\n\
         or say with --once that once is meant.\n"
    );
    assert_eq!(
        words("strong(a) and (weak(b) until strong(0))"),
        "Asked once: strong(a), at the first sample only. To ask at every sample, write\n\
         \x20 (always strong(a)) and (weak(b) until strong(0))\n\
         or say with --once that once is meant.\n"
    );
}

#[test]
fn what_would_be_too_large_is_not_suggested() {
    // k letters, k - 1 ##1 and strong are 2k nodes; a and `and` are two more, and always one, which is written
    // out to four
    let strong = |letters: usize| format!("strong({})", vec!["a"; letters].join(" ##1 "));
    let both = |letters| format!("{} and {}", strong(28), strong(letters));
    assert!(once(&both(29)).unwrap().instead.is_ok());
    let large = |letters| once(&both(letters)).unwrap().words();
    assert_eq!(
        large(30),
        "Asked once: the whole assertion, at the first sample only. always (..) around it asks at every sample, \
         but then no engine judges it: written out it has 122 nodes, and 120 is the most.\n\
         Say with --once that once is meant.\n"
    );
    assert_eq!(
        large(31),
        "Asked once: the whole assertion, at the first sample only. always (..) around it asks at every sample, \
         but then it has more than 120 nodes, and 120 is the most.\n\
         Say with --once that once is meant.\n"
    );
    // eleven letters under a clock, rewritten: 2 booleans, 99 nodes, 10 ##1 and strong are 112, and with
    // 0, its letter, weak and until 132
    let letters = ["a"; 11].join(" ##1 ");
    let clocked = once(&format!("@(c) strong({letters})")).unwrap();
    assert_eq!(
        clocked.words(),
        "Asked once: the whole assertion, at the first sample only. always (..) around it asks at every tick, \
         but then the fast engine and the program refuse it with 13, rewritten count over 120: under a clock \
         each letter counts 9 nodes, each nexttime 14 and each until 9; the plain engine judges it.\n\
         Say with --once that once is meant.\n"
    );
}

#[test]
fn what_a_line_would_cut_is_not_suggested() {
    // a shared boolean of more than 400 characters
    let long = vec!["a & b | c"; 45].join(" | ");
    let Text { names, assertion } = notation::read(&format!(
        "signals a b c\nlet long = {long}\nstrong(long ##1 long) and (strong(long) until weak(long))"
    ))
    .unwrap();
    let once = Once::of(&assertion, &names).unwrap();
    assert_eq!(once.parts, ["strong(.. ##1 ..)"]);
    let words = once.words();
    let end = "always (..) around it asks at every sample, and the whole of it is too long to be \
               written here.\nSay with --once that once is meant.\n";
    assert!(words.ends_with(end), "{words}");
}

/// What is suggested reads back as the nodes that were put together, is accepted by the judge, and asks
/// nothing once.
#[test]
fn what_is_suggested_is_accepted_and_asks_nothing_once() {
    let (mut suggested, mut none, mut too_large) = (0, 0, 0);
    for seed in 0..8_000 {
        let Case::Judge { table, .. } = random_case(seed) else {
            continue;
        };
        let judged = xistomar::Judge::new().judge(&table, &[]);
        let Some(assertion) = judged.and_then(|_| Assertion::of_table(&table)).ok() else {
            continue;
        };
        let Some(once) = Once::of(&assertion, &Names::none()) else {
            none += 1;
            continue;
        };
        let Ok(text) = once.instead else {
            too_large += 1;
            continue;
        };
        let numbers: Vec<String> = (0..64).map(|number| format!("s{number}")).collect();
        let signals = format!("signals {}\n", numbers.join(" "));
        let read = notation::read(&(signals + &text)).unwrap();
        let judged = xistomar::Judge::new().judge(&read.assertion.table(), &[]);
        assert!(judged.is_ok(), "{text}");
        assert_eq!(Once::of(&read.assertion, &read.names), None, "{text}");
        suggested += 1;
    }
    assert!(
        suggested > 500 && none > 50 && too_large > 3,
        "{suggested} {none} {too_large}"
    );
}
