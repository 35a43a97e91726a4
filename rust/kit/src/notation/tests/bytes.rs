//! Texts of every kind: none ends in a panic, and what is read is a table.
use super::*;

/// What a text that is read must be: a table that the proved check accepts, or refuses with 9.
/// Answers whether it was read.
fn is_table(text: &str) -> bool {
    let _ = read_names(text);
    match read(text) {
        Ok(read) => {
            if let Err(refusal) = xistomar::check(&read.assertion.table()) {
                assert_eq!(refusal.number(), 9, "{text}");
            }
            true
        }
        Err(mistake) => {
            assert!(mistake.line >= 1 && mistake.column >= 1);
            assert!(
                !mistake.words.is_empty() && mistake.words.len() < 400,
                "{}",
                mistake.words
            );
            // the place is in the text, or just after it
            let lines = text.lines().count().max(1);
            assert!(mistake.line <= lines, "{mistake}");
            assert!(mistake.to_string().len() < 2000);
            false
        }
    }
}

#[test]
fn deep_and_long_texts_have_their_own_messages() {
    let deep = "more than 400 parts stand in one another, and no table of 120 nodes needs that";
    let large = "the table would have more than 120 nodes, and 120 is the most";
    let cases = [
        ("(".repeat(1 << 20), deep),
        ("!".repeat(1 << 20), deep),
        ("not ".repeat(1 << 18), deep),
        ("@(".repeat(1 << 19), deep),
        ("@(a) ".repeat(1 << 17), deep),
        ("strong(".repeat(1 << 17), deep),
        (format!("a{}", " ##1 a".repeat(10_000)), large),
        (format!("a{}", " & a".repeat(10_000)), large),
        (format!("a{}", "[*1:$]".repeat(10_000)), large),
        (format!("a{} |-> strong(a)", " |-> a".repeat(150)), large),
        (format!("{}a{}", "!(".repeat(150), ")".repeat(150)), large),
    ];
    for (text, words) in cases {
        assert_eq!(mistake(&text).2, words, "{}", &text[..20]);
    }
}

#[test]
fn a_table_may_have_120_nodes_and_no_more() {
    // a, its letter, and then a letter and a ##1 for each more: 2 + 2 * 59 = 120
    let text = format!("a{}", " ##1 a".repeat(59));
    assert_eq!(table(&text).len(), 6 + 4 * 120);
    assert!(mistake(&format!("{text} ##1 a")).2.contains("120 nodes"));
    // nested as deep as 120 nodes reach, in the form with the most parentheses
    let text = format!("{}a{}", "@(a) (".repeat(118), ")".repeat(118));
    assert_eq!(table(&text).len(), 6 + 4 * 120);
}

#[test]
fn names_and_comments_may_be_long() {
    assert!(!is_table(&"x".repeat(1 << 20)));
    assert!(!is_table(&format!("signals {}", "x ".repeat(1 << 19))));
    assert!(!is_table(&"9".repeat(1 << 20)));
    assert!(!is_table(&format!("signals a={}", "9".repeat(1 << 19))));
    assert!(is_table(&format!("// {}\nstrong(1)", "x".repeat(1 << 20))));
    assert!(is_table(&format!("strong({}1)", "\n".repeat(1 << 20))));
    assert!(is_table("signals a\r\nstrong(a)\r\n"));
    let many: Vec<String> = (0..70_000).map(|n| format!("let x{n} = 1\n")).collect();
    assert!(is_table(&format!("{}strong(x69999)", many.concat())));
}

#[test]
fn random_bytes_never_panic() {
    let random = &mut Random(1);
    for _ in 0..10_000 {
        let length = random.below(60);
        let bytes = random.bytes(length);
        is_table(&String::from_utf8_lossy(&bytes));
        let printable: String = bytes.iter().map(|byte| char::from(byte & 127)).collect();
        is_table(&printable);
        is_table(&format!("signals a b\n{printable}"));
    }
}

const TOKENS: [&str; 61] = [
    "a",
    "b",
    "c",
    "rose(a)",
    "fell(b)",
    "0",
    "1",
    "strong(",
    "weak(",
    "(",
    ")",
    ")",
    ")",
    "[*0]",
    "[*1:$]",
    "[*2]",
    "[->1]",
    "##2",
    "always",
    "s_nexttime",
    "|=>",
    "#-#",
    "s_until",
    "!",
    "&",
    "|",
    "##1",
    "##0",
    "not",
    "nexttime",
    "and",
    "or",
    "until",
    "|->",
    "@(c)",
    "@(",
    "@",
    "[",
    "*",
    "]",
    ":",
    "$",
    "##",
    "2",
    "signals",
    "let",
    "=",
    ",",
    "\n",
    "//",
    "s_always",
    "|==>",
    "x",
    "a.b",
    "é",
    "\t",
    "rose(",
    "fell",
    "rose(a &",
    "fell((c))",
    "$rose(a)",
];

#[test]
fn random_tokens_are_a_table_or_a_mistake() {
    let random = &mut Random(2);
    let mut accepted = 0;
    for _ in 0..20_000 {
        let length = 1 + random.below(9);
        // mostly tokens of the notation, so that some are read
        let common = if random.below(4) == 0 {
            TOKENS.len()
        } else {
            35
        };
        let soup: Vec<&str> = (0..length)
            .map(|_| random.pick(&TOKENS[..common]))
            .collect();
        accepted += usize::from(is_table(&declared(&soup.join(" "))));
    }
    assert!(accepted > 300, "{accepted} accepted");
}

#[test]
fn good_texts_with_a_few_slips_are_a_table_or_a_mistake() {
    let random = &mut Random(3);
    let mut accepted = 0;
    for seed in 0..2000 {
        let second::Case::Judge { table, .. } = second::random_case(seed) else {
            continue;
        };
        let Ok(assertion) = Assertion::of_table(&table) else {
            continue;
        };
        // a table of version 3 is none of version 2
        let rising = Assertion::of_table(&rising(&table, seed));
        let assertion = match rising {
            Ok(rising) if seed % 2 == 1 => rising,
            _ => assertion,
        };
        let text = write(&assertion, &Names::none());
        for _ in 0..5 {
            let mut words: Vec<&str> = text.split(' ').collect();
            for _ in 0..1 + random.below(2) {
                let place = random.below(words.len());
                match random.below(3) {
                    0 if words.len() > 1 => drop(words.remove(place)),
                    1 => words.insert(place, random.pick(&TOKENS[..35])),
                    _ => words[place] = random.pick(&TOKENS[..35]),
                }
            }
            accepted += usize::from(is_table(&words.join(" ")));
        }
        // cut anywhere
        let cut = random.below(text.len());
        is_table(&text[..cut]);
    }
    assert!(accepted > 25, "{accepted} accepted");
}
