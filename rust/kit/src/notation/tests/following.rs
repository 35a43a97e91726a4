//! A person follows each hint to the letter: what it says to write is put in the place of what was written, and
//! is read.
use super::hints::{FOREIGN, FUNCTIONS, REPETITIONS};
use super::*;

/// A text over the signals a to h with the advice of its mistake followed: the form that is to be written stands
/// for the one at the mistake's place. None where the message has words alone.
pub fn followed(text: &str) -> Option<String> {
    let (line, column, words) = mistake(text);
    assert_eq!(line, 2, "{text}");
    let place = column - 1;
    let quoted = |after: &str| after.split('`').next().unwrap().to_string();
    if let Some((_, whole)) = words.split_once("around it: write `") {
        return Some(quoted(whole));
    }
    let (form, instead) = if let Some((before, after)) = words.split_once("` is written `") {
        (
            before.rsplit('`').next().unwrap().to_string(),
            quoted(after),
        )
    } else if let Some((_, after)) = words.split_once(": for `") {
        let (form, after) = after.split_once("` write `")?;
        (form.to_string(), quoted(after))
    } else {
        // the part itself may be cut in the message
        let (_, after) = words.split_once(": write `")?;
        let inside = quoted(after.trim_start_matches("strong("));
        let inside = inside.strip_suffix(')').unwrap_or(&inside);
        let whole = format!("({inside})");
        let form = match text[place..].starts_with(&whole) {
            true => whole,
            false => inside.to_string(),
        };
        (form, quoted(after))
    };
    let around = |start: &usize| (*start..*start + form.len()).contains(&place);
    let mut starts = text.match_indices(&form).map(|(start, _)| start);
    let start = starts.find(around)?;
    let after = &text[start + form.len()..];
    Some(format!("{}{instead}{after}", &text[..start]))
}

/// The text is read, and accepted by the check.
pub fn accepted(text: &str) {
    let checked = xistomar::check(&table(text));
    assert!(checked.is_ok(), "{text}: {checked:?}");
}

/// What a person does with a hint.
enum Advice {
    /// Writes the form that it proposes.
    Form,
    /// Does what its words say: writes one thing for another.
    Words(&'static str, &'static str),
    /// Nothing: there is no such thing in the notation.
    Absent,
}

use Advice::{Absent, Form, Words};

/// A text for each word and sign that has a hint.
const TEXTS: [(&str, &str, Advice); 74] = [
    ("=>", "a => strong(b)", Words("=>", "|->")),
    ("==>", "a ==> strong(b)", Words("==>", "|->")),
    ("-->", "a --> strong(b)", Words("-->", "|->")),
    ("|-", "a |- strong(b)", Words("|-", "|->")),
    ("|--", "a |-- strong(b)", Words("|--", "|->")),
    ("|-->", "a |--> strong(b)", Words("|-->", "|=>")),
    ("->", "strong(a ##1 b | c -> d)", Form),
    ("=", "strong(a = 1)", Words("a = 1", "a")),
    ("<->", "strong(a <-> b & c)", Form),
    ("&&", "strong(a && b)", Words("&&", "&")),
    ("||", "strong(a || b)", Words("||", "|")),
    ("~", "strong(~a)", Words("~", "!")),
    ("==", "strong(a & b == c | d)", Form),
    ("===", "strong(a === b)", Form),
    ("!=", "strong((a | b) != c)", Form),
    ("!==", "strong(a !== b)", Form),
    ("^", "strong(a & b ^ c)", Form),
    ("xor", "strong(a xor b)", Form),
    ("?", "strong(a | b ? c : d)", Form),
    ("<", "strong(a < b)", Absent),
    (">", "strong(a > b)", Absent),
    ("<=", "strong(a <= b)", Absent),
    (">=", "strong(a >= b)", Absent),
    ("+", "strong(a + b)", Absent),
    ("-", "strong(a - b)", Absent),
    ("%", "strong(a % b)", Absent),
    ("#", "strong(a #1 b)", Words("#1", "##1")),
    (
        "/*",
        "/* it comes */ strong(a)",
        Words("/* it comes */", "// it comes\n"),
    ),
    ("/", "strong(a) / it comes", Words("/", "//")),
    ("--", "strong(a) -- it comes", Words("--", "//")),
    (";", "strong(a);", Words(";", "")),
    (
        "{",
        "{a ##1 b} |-> strong(c)",
        Words("{a ##1 b}", "(a ##1 b)"),
    ),
    ("}", "strong(a}", Words("}", ")")),
    ("true", "strong(true)", Words("true", "1")),
    ("false", "strong(false)", Words("false", "0")),
    (
        "s_always",
        "s_always strong(a)",
        Words("s_always", "always"),
    ),
    ("never", "a |-> never b |-> strong(c)", Form),
    (
        "eventually",
        "eventually strong(a)",
        Words("eventually", "s_eventually"),
    ),
    ("next", "next strong(a)", Words("next", "nexttime")),
    ("until_with", "a |-> !b until_with c", Form),
    ("s_until_with", "not strong(a) s_until_with b ##1 c", Form),
    ("implies", "strong(a) and weak(b) implies c", Form),
    ("iff", "strong(a) or weak(b) iff c ##1 d", Form),
    ("if", "c |-> if (a | b) c ##1 d", Form),
    (
        "else",
        "(a |-> strong(b)) else strong(c)",
        Words(
            "(a |-> strong(b)) else strong(c)",
            "((a |-> strong(b)) and (!(a) |-> strong(c)))",
        ),
    ),
    ("case", "case (a) strong(b)", Absent),
    ("intersect", "strong(a intersect b)", Absent),
    ("within", "strong(a within b)", Absent),
    ("throughout", "strong(a throughout b)", Absent),
    ("first_match", "strong(first_match(a))", Absent),
    (
        "disable",
        "disable iff (a) strong(b)",
        Words("disable iff (a)", ""),
    ),
    (
        "accept_on",
        "accept_on(a) strong(b)",
        Words("accept_on(a)", ""),
    ),
    (
        "reject_on",
        "reject_on(a) strong(b)",
        Words("reject_on(a)", ""),
    ),
    (
        "sync_accept_on",
        "sync_accept_on(a) strong(b)",
        Words("sync_accept_on(a)", ""),
    ),
    (
        "sync_reject_on",
        "sync_reject_on(a) strong(b)",
        Words("sync_reject_on(a)", ""),
    ),
    ("posedge", "@(posedge c) strong(a)", Form),
    ("negedge", "@(negedge c) strong(a)", Form),
    ("edge", "@(edge c) strong(a)", Form),
    (
        "assert",
        "assert property (@(c) a |-> strong(b)) else $error;",
        Form,
    ),
    ("assume", "assume property (a |-> strong(b));", Form),
    (
        "cover",
        "cover property (strong(a));",
        Words("cover property (strong(a));", "strong(a)"),
    ),
    (
        "expect",
        "expect (strong(a));",
        Words("expect (strong(a));", "strong(a)"),
    ),
    ("restrict", "restrict property (strong(a));", Form),
    (
        "property",
        "property p; strong(a); endproperty",
        Words("property p; strong(a); endproperty", "strong(a)"),
    ),
    (
        "endproperty",
        "strong(a) endproperty",
        Words("endproperty", ""),
    ),
    (
        "sequence",
        "sequence s; a ##1 b; endsequence",
        Words("sequence s; a ##1 b; endsequence", "a ##1 b"),
    ),
    (
        "endsequence",
        "a ##1 b endsequence",
        Words("endsequence", ""),
    ),
    (
        "default",
        "default clocking @(c); strong(a)",
        Words("default clocking @(c);", "@(c)"),
    ),
    (
        "clocking",
        "clocking @(c); strong(a)",
        Words("clocking @(c);", "@(c)"),
    ),
    (
        "signal",
        "signal x\nstrong(x)",
        Words("signal x", "signals x"),
    ),
    ("wire", "wire x\nstrong(x)", Words("wire x", "signals x")),
    ("logic", "logic x\nstrong(x)", Words("logic x", "signals x")),
    ("input", "input x\nstrong(x)", Words("input x", "signals x")),
    (
        "define",
        "define busy = a & !b\nstrong(busy)",
        Words("define", "let"),
    ),
];

/// Whether a message proposes a form for a part of the text.
fn proposes(text: &str) -> bool {
    let (_, _, words) = mistake(text);
    (words.contains("is written `") || words.contains(": write `")) && followed(text).is_some()
}

#[test]
fn every_word_and_sign_with_a_hint_is_followed() {
    assert_eq!(TEXTS.map(|row| row.0), FOREIGN.map(|row| row.0));
    for (word, text, advice) in TEXTS {
        let (.., words) = mistake(text);
        match advice {
            Form => accepted(&followed(text).unwrap_or_else(|| panic!("{word}: {words}"))),
            Words(from, to) => {
                assert!(!proposes(text), "{word}: {words}");
                assert_eq!(text.matches(from).count(), 1, "{word}");
                accepted(&text.replace(from, to));
            }
            Absent => assert!(!words.contains("is written"), "{word}: {words}"),
        }
    }
}

#[test]
fn every_function_with_a_hint_is_followed() {
    for (name, _) in FUNCTIONS {
        for text in [
            format!("strong({name}(b))"),
            format!("a & !{name}(b) |-> strong(c)"),
            format!("strong({name}(b, @(posedge c)))").replace(", @(posedge c)", ""),
        ] {
            accepted(&followed(&text).unwrap());
        }
    }
    // what looks back further is said in words
    let words = "`$past(a, 3)` looks back 3 samples, and a boolean looks back one: what begins 3 samples earlier \
                 says it, as in `a ##3 1 |-> P`";
    assert_eq!(
        mistake("always ($past(a, 3) |-> strong(b))"),
        (2, 9, words.to_string())
    );
    accepted("always (a ##3 1 |-> strong(b))");
    let text = "$past(a, 20) |-> strong(b)";
    assert!(mistake(text).2.ends_with("as in `a ##15 1 ##5 1 |-> P`"));
    accepted("a ##15 1 ##5 1 |-> strong(b)");
    let words = "`$past(a, 99)` is written out to more than the 120 nodes of a table";
    assert_eq!(mistake("$past(a, 99)"), (2, 1, words.to_string()));
    assert_eq!(
        mistake("$past(a, 0)"),
        (2, 1, "`$past(a, 0)` is written `a`".to_string())
    );
    // and so is a condition that rises or falls
    for text in ["$rose(a & b)", "$fell(!a)"] {
        let words = "only a signal can rise or fall: of a condition b, `!(b) ##1 (b)` says over two samples that \
                     it becomes 1, and `(b) ##1 !(b)` that it becomes 0";
        assert_eq!(mistake(text), (2, 1, words.to_string()));
    }
    accepted("strong(!(a & b) ##1 (a & b))");
}

#[test]
fn every_repetition_and_delay_without_a_number_is_followed() {
    for (inside, _) in REPETITIONS {
        accepted(&followed(&format!("strong((a ##1 b)[{inside}] ##1 c)")).unwrap());
    }
    for after in ["[+]", "[*]", "[*0:$]"] {
        accepted(&followed(&format!("strong(a ##{after} b)")).unwrap());
        accepted(&followed(&format!("strong(##{after} b)")).unwrap());
        accepted(&followed(&format!("a |-> ##{after} b")).unwrap());
        accepted(&followed(&format!("a |-> ##{after} always strong(b)")).unwrap());
    }
}

/// What stands for another sort than the one that is due: the end of the message, and what it says to write.
#[test]
fn hints_on_sorts_are_followed() {
    for (text, words, fed) in [
        (
            "strong(!a[*1:$])",
            "to repeat the whole, write (!a)[*1:$]",
            "strong((!a)[*1:$])",
        ),
        (
            "@(a or b) strong(c)",
            "booleans are joined by |",
            "@(a | b) strong(c)",
        ),
        (
            "!strong(a)",
            "a property is turned round by not",
            "not strong(a)",
        ),
        (
            "strong(a) & strong(b)",
            "properties are joined by and",
            "strong(a) and strong(b)",
        ),
        (
            "strong(a) | strong(b)",
            "properties are joined by or",
            "strong(a) or strong(b)",
        ),
        (
            "strong(not a)",
            "a boolean is turned round by !",
            "strong(!a)",
        ),
        (
            "strong(a and b)",
            "booleans are joined by &",
            "strong(a & b)",
        ),
        (
            "strong(!a until b)",
            "there `a until b` is written `((a)[*0] or (a)[*1:$]) ##1 b`",
            "strong(((!a)[*0] or (!a)[*1:$]) ##1 b)",
        ),
        (
            "nexttime a |-> strong(b)",
            "an implication here needs parentheses around it",
            "nexttime (a |-> strong(b))",
        ),
        (
            "rose(!a) |-> strong(b)",
            "write fell(a)",
            "fell(a) |-> strong(b)",
        ),
        (
            "strong(rose(a & b))",
            "over two samples, `!(a & b) ##1 (a & b)` says that it becomes 1",
            "strong(!(a & b) ##1 (a & b))",
        ),
    ] {
        let (.., told) = mistake(text);
        assert!(told.ends_with(words), "{told}");
        accepted(fed);
    }
}

/// What stands deep in one another, or is not closed, is a mistake and nothing else.
#[test]
fn no_depth_upsets_the_hints() {
    for piece in [
        "##1 ",
        "never ",
        "if (a) ",
        "a -> ",
        "a iff ",
        "a ##[2:$] ",
        "nexttime[2] ",
        "a ? ",
        "always[2:9] (",
    ] {
        for count in [1, 2, 399, 400, 600] {
            let text = piece.repeat(count);
            for text in [
                text.clone(),
                format!("{text}a"),
                format!("a |-> {text}strong(a)"),
            ] {
                let (line, _, words) = mistake(&text);
                assert!(line == 2 && !words.is_empty(), "{piece}");
            }
        }
    }
}

/// Forms with the number n, or m and n, each with letters of its own.
const ONE: [&str; 18] = [
    "strong(a[*n:$])",
    "strong(a[->n:$])",
    "strong(a[=n:$])",
    "strong(a[*n])",
    "strong(a[->n])",
    "strong(a ##n b)",
    "strong(a ##[n] b)",
    "strong(a ##[n:$] b)",
    "c |-> ##n a",
    "c |-> ##[n:$] a",
    "c |-> ##n strong(a)",
    "c |-> ##n not strong(a)",
    "##n a |-> strong(b)",
    "nexttime[n] a",
    "s_nexttime[n] strong(a)",
    "always[n:$] strong(a)",
    "s_eventually[n:$] a",
    "a[*2] ##[n:$] b |-> strong(c)",
];
const TWO: [&str; 13] = [
    "strong(a[*m:n])",
    "strong(a[->m:n])",
    "strong(a[=m:n])",
    "strong(a ##[m:n] b)",
    "strong(##[m:n] a)",
    "c |=> ##[m:n] a ##1 b",
    "c |-> ##[m:n] weak(a or b)",
    "c |-> ##[m:n] not strong(a)",
    "always[m:n] a",
    "s_always[m:n] strong(a)",
    "eventually[m:n] strong(a)",
    "s_eventually[m:n] a",
    "not always[m:n] strong(a)",
];

fn numbered(form: &str, m: usize, n: usize) -> String {
    let mut text = String::new();
    let bytes = form.as_bytes();
    for (place, c) in form.char_indices() {
        let name = |at: usize| bytes.get(at).is_some_and(u8::is_ascii_alphabetic);
        let beside = name(place + 1) || place > 0 && name(place - 1);
        match c {
            'm' if !beside => text.push_str(&m.to_string()),
            'n' if !beside => text.push_str(&n.to_string()),
            c => text.push(c),
        }
    }
    text
}

/// The nodes that a text is written out to, after its hint where it needs one; none where the hint says that it
/// is too large.
fn written_out(text: &str) -> Option<u128> {
    let read = match read(&declared(text)) {
        // the notation's own are not a hint's matter
        Ok(_) => return None,
        Err(mistake)
            if mistake
                .words
                .ends_with("more than the 120 nodes of a table") =>
        {
            return None
        }
        Err(_) => followed(text).unwrap_or_else(|| panic!("{text}: {}", mistake(text).2)),
    };
    accepted(&read);
    let all = crate::sizes::Sizes::of(&super::read(&declared(&read)).unwrap().assertion).all;
    // beside the smallest parts these texts have an implication, or two signals
    assert!(all <= 130, "{text}: {read} has {all}");
    Some(all)
}

#[test]
fn every_form_with_numbers_is_followed_and_grows_evenly() {
    let mut compared = 0;
    let mut compare = |texts: &mut dyn Iterator<Item = String>| {
        let sizes: Vec<Option<u128>> = texts.map(|text| written_out(&text)).collect();
        for (place, pair) in sizes.windows(2).enumerate() {
            // the first few are plainer, and where one may come [*1] is not written
            let most = if place < 3 { 26 } else { 12 };
            if let [Some(one), Some(next)] = pair {
                assert!(*next <= one + most, "{sizes:?}");
                compared += 1;
            }
        }
    };
    for form in ONE {
        compare(&mut (2..=60).map(|n| numbered(form, 0, n)));
    }
    for form in TWO {
        for m in [0, 1, 2, 7, 14] {
            // one number alone has a form of its own; a[->0:0] is the empty stretch, which strong does not take
            if m > 0 {
                written_out(&numbered(form, m, m));
            }
            compare(&mut (m + 1..=40).map(|n| numbered(form, m, n)));
        }
    }
    assert!(compared > 700, "{compared}");
}

/// With b alone: a group for each of m, and one more under [*0], are 8 nodes, each that may come is 11 and so is one
/// more, `##1` and strong are 2, and the booleans are b, !b and the one that b[->m] makes; b[=0] has 14 nodes more
/// with a `##1`, and a boolean.
#[test]
fn what_fits_is_proposed_and_what_does_not_is_not() {
    for (least, most, other) in [
        // 16 + 11 · 9 + 2 + 3
        ("b[->1:9]", 120, "b[->1:10]"),
        // 16 + 11 · 7 + 2 + 3 + 16
        ("b[=1:7]", 114, "b[=1:8]"),
        // 11 · 10 + 1 + 2
        ("b[->0:9]", 113, "b[->0:10]"),
        // 8 · 12 + 1 + 17 + 1 + 3
        ("b[->12:$]", 118, "b[->13:$]"),
    ] {
        assert_eq!(
            written_out(&format!("strong({least})")),
            Some(most),
            "{least}"
        );
        let words = format!("`{other}` is written out to more than the 120 nodes of a table");
        assert_eq!(mistake(&format!("strong({other})")).2, words);
    }
}

#[test]
fn numbers_that_stand_backwards_are_turned_and_followed() {
    for (text, right) in [
        ("strong(a[*5:2])", "strong(a[*2:5])"),
        ("strong(a ##[3:1] b)", "strong(a ##[1:3] b)"),
    ] {
        let (.., words) = mistake(text);
        let (_, numbers) = words.split_once("counts backwards: write ").unwrap();
        assert!(right.contains(numbers), "{words}");
        accepted(right);
    }
    for (text, form) in [
        ("strong(a[->3:1])", "a[->1:3]"),
        ("strong(a[=4:2])", "a[=2:4]"),
        ("strong(a[*20:3])", "a[*3:20]"),
        ("c |-> ##[5:2] a", "##[2:5] a"),
        ("always[9:2] a", "always[2:9] a"),
    ] {
        let (.., words) = mistake(text);
        let (before, rest) = words.split_once(" counts backwards: `").unwrap();
        let (m, n) = before.split_once(" to ").unwrap();
        let given = form
            .replacen(n, "x", 1)
            .replacen(m, n, 1)
            .replacen('x', m, 1);
        let (shown, after) = rest.split_once("` is written `").unwrap();
        assert_eq!(shown, form);
        let instead = after.split('`').next().unwrap();
        let fed = text.replace(&given, instead);
        assert_ne!(fed, text, "{words}");
        accepted(&fed);
    }
}
