use super::*;

fn numbers(text: &str) -> Vec<(String, u8)> {
    read_names(text).unwrap().all().to_vec()
}

fn wrong(text: &str) -> (usize, usize, String) {
    let mistake = read(text).unwrap_err();
    assert_eq!(read_names(text).unwrap_err(), mistake);
    (mistake.line, mistake.column, mistake.words)
}

#[test]
fn signals_have_the_numbers_given_or_the_next() {
    let named = |pairs: &[(&str, u8)]| -> Vec<(String, u8)> {
        let pairs = pairs.iter();
        pairs
            .map(|(name, number)| (name.to_string(), *number))
            .collect()
    };
    assert_eq!(numbers("signals a b"), named(&[("a", 0), ("b", 1)]));
    assert_eq!(
        numbers("signals ack=5 drop, x = 0 ,y // signals z\n\n  signals top.dut_1=63"),
        named(&[
            ("ack", 5),
            ("drop", 6),
            ("x", 0),
            ("y", 1),
            ("top.dut_1", 63)
        ])
    );
    // the count goes on over lines, and letters may be of any alphabet
    assert_eq!(
        numbers("signals _a\nsignals größe\nsignals данные"),
        named(&[("_a", 0), ("größe", 1), ("данные", 2)])
    );
    // a word that has a hint is no word of the notation, so it may be a name
    assert_eq!(numbers("signals s_always=3"), named(&[("s_always", 3)]));
    assert_eq!(numbers(""), []);
    assert_eq!(numbers("// nothing\n"), []);
}

#[test]
fn what_follows_the_declarations_is_not_looked_at_for_names() {
    let text = "signals a\nthis is ) no assertion $$";
    assert_eq!(numbers(text), [("a".to_string(), 0)]);
    assert!(read(text).is_err());
}

#[test]
fn declarations_that_are_wrong_are_shown_at_their_place() {
    let cases = [
        ("signals a=64", 1, 11, "signal 64 is above 63"),
        ("signals a=300", 1, 11, "signal 300 is above 63"),
        (
            "signals a=99999999999999999999999",
            1,
            11,
            "signal 99999999999999999999999 is above 63",
        ),
        ("signals a=63 b", 1, 14, "signal 64 is above 63"),
        (
            "signals a b\nsignals c a",
            2,
            11,
            "the name a is declared twice",
        ),
        ("signals a=2 b=2", 1, 15, "signal 2 is already named a"),
        ("signals a=1 b=0 c", 1, 17, "signal 1 is already named a"),
        (
            "signals strong=1",
            1,
            9,
            "strong is a word of the notation and names no signal: strong_ would do",
        ),
        (
            "signals let=1",
            1,
            9,
            "let is a word of the notation and names no signal: let_ would do",
        ),
        (
            "signals\nstrong(a)",
            1,
            8,
            "the name of a signal was expected, and the line ends here",
        ),
        (
            "signals a=\nb",
            1,
            11,
            "the number of a signal, 0 to 63, was expected, and the line ends here",
        ),
        (
            "signals a=x",
            1,
            11,
            "the number of a signal, 0 to 63, was expected, and here stands `x`",
        ),
        (
            "signals a=1'b1",
            1,
            11,
            "the number of a signal, 0 to 63, was expected, and here stands `1'b1`",
        ),
        (
            "signals 3=a",
            1,
            9,
            "the name of a signal was expected, and here stands `3`: a name has letters, digits, _ and ., and begins with a letter or _",
        ),
        (
            "signals a,,b",
            1,
            11,
            "the name of a signal was expected, and here stands `,`: a name has letters, digits, _ and ., and begins with a letter or _",
        ),
        // this is not a=0 and a signal x1
        (
            "signals a=0x1",
            1,
            11,
            "the number of a signal, 0 to 63, was expected, and here stands `0x1`",
        ),
        (
            "signals a=-1",
            1,
            11,
            "the number of a signal, 0 to 63, was expected, and here stands `-`",
        ),
        (
            "signals chip-select",
            1,
            13,
            "the name of a signal was expected, and here stands `-`: a name has letters, digits, _ and ., and begins with a letter or _",
        ),
        (
            "signals a b strong(a)",
            1,
            13,
            "a new line is due here: declarations and the assertion begin one",
        ),
        (
            "signals a s_until b",
            1,
            11,
            "s_until is a word of the notation and names no signal: s_until_ would do",
        ),
        (
            "signals a b;",
            1,
            12,
            "leave ; out: a declaration ends with its line, and the assertion with the text",
        ),
        (
            "signals a # b",
            1,
            11,
            "comments begin with //, delays are written ##1 and ##[1:3], and #-# and #=# are written without blanks",
        ),
    ];
    for (text, line, column, words) in cases {
        assert_eq!(wrong(text), (line, column, words.to_string()), "{text}");
    }
    let long = format!("signals {}", "x".repeat(201));
    assert_eq!(wrong(&long).2, "a name has at most 200 characters");
    assert_eq!(numbers(&format!("signals {}", "x".repeat(200))).len(), 1);
}

#[test]
fn a_boolean_gets_a_name() {
    let one = table("let busy = a & !b\nlet idle = !busy | c\nstrong(busy ##1 idle)");
    let other = table("strong((a & !b) ##1 (!(a & !b) | c))");
    assert_eq!(one, other);
    // one that is not used leaves no node
    assert_eq!(table("let busy = a & b\nstrong(c)"), table("strong(c)"));
    // the assertion may begin with a sign that could go on: the line has ended
    assert_eq!(table("let x = a\n(x)"), table("a"));
}

#[test]
fn definitions_that_are_wrong_are_shown_at_their_place() {
    let cases = [
        ("let a = b\na", 2, 5, "the name a is declared twice"),
        (
            "let x = b\nlet x = c\na",
            3,
            5,
            "the name x is declared twice",
        ),
        (
            "let not = b\na",
            2,
            5,
            "not is a word of the notation and names no signal: not_ would do",
        ),
        (
            "let x b\na",
            2,
            7,
            "= and a boolean was expected, and here stands `b`",
        ),
        (
            "let x =\na",
            2,
            8,
            "a boolean was expected, and the line ends here",
        ),
        (
            "let x = a ##1 b\na",
            2,
            9,
            "a boolean is due here, and `a ##1 b` is a sequence",
        ),
        (
            "let x = (a\n)\na",
            2,
            11,
            "a closing parenthesis was expected, to match line 2, column 9",
        ),
        (
            "let x = x\na",
            2,
            9,
            "x is not declared: a line with signals names each signal",
        ),
        (
            "let x = a b\na",
            2,
            11,
            "an operator or the end of the line was expected, and here stands `b`",
        ),
        (
            "let x = a\nsignals z",
            3,
            1,
            "lines with signals stand before those with let",
        ),
        (
            "strong(a)\nlet x = a",
            3,
            1,
            "declarations stand before the assertion, each on a line of its own",
        ),
        (
            "strong(a)\nsignals z",
            3,
            1,
            "declarations stand before the assertion, each on a line of its own",
        ),
    ];
    for (text, line, column, words) in cases {
        assert_eq!(mistake(text), (line, column, words.to_string()), "{text}");
    }
}
