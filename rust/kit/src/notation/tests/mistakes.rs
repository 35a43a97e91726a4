use super::*;

#[test]
fn sorts_that_do_not_fit_are_shown_at_the_part() {
    let strong = |text: &str| {
        format!(": write `strong({text})` or `weak({text})`: strong must match in the record, weak must only not be ruled out")
    };
    let cases = [
        ("strong(b) and a ##1 b", 15, format!("a property is due here, and `a ##1 b` is a sequence{}", strong("a ##1 b"))),
        ("a until strong(b)", 1, format!("a property is due here, and `a` is a boolean{}", strong("a"))),
        ("strong(a) or b", 14, format!("a property is due here, and `b` is a boolean{}", strong("b"))),
        ("b or strong(a)", 1, format!("a property is due here, and `b` is a boolean{}", strong("b"))),
        ("a |-> b ##1 c", 7, format!("a property is due here, and `b ##1 c` is a sequence{}", strong("b ##1 c"))),
        ("nexttime (a or b)", 10, format!("a property is due here, and `(a or b)` is a sequence{}", strong("a or b"))),
        ("not a", 5, "a property is due here, and `a` is a boolean: for `not a` write `strong(!a)` or `not strong(a)`".to_string()),
        ("a and b", 1, "a property is due here, and `a` is a boolean: for `a and b` write `strong(a & b)` or `strong(a) and strong(b)`".to_string()),
        ("not a |-> strong(b)", 5, "a property is due here, and `a` is a boolean: for `not a` write `!a`, or put parentheses around the implication".to_string()),
        ("nexttime a |-> strong(b)", 10, "a property is due here, and `a` is a boolean: an implication here needs parentheses around it".to_string()),
        ("(a and b |-> strong(c)) until strong(0)", 2, "a property is due here, and `a` is a boolean: for `a and b` write `a & b`".to_string()),
        ("a until b |-> strong(c)", 1, format!("a property is due here, and `a` is a boolean{}", strong("a"))),
        ("strong(a) until b |-> strong(c)", 17, "a property is due here, and `b` is a boolean: an implication here needs parentheses around it".to_string()),
        ("strong(a) ##1 b", 1, "a sequence is due here, and `strong(a)` is a property".to_string()),
        ("strong(strong(a))", 7, "a sequence is due here, and `(strong(a))` is a property".to_string()),
        ("weak(a)[*1:$]", 1, "a sequence is due here, and `weak(a)` is a property".to_string()),
        ("strong(a) |-> strong(b)", 1, "a sequence is due here, and `strong(a)` is a property".to_string()),
        ("@(a or b) strong(c)", 2, "a boolean is due here, and `(a or b)` is a sequence: booleans are joined by |".to_string()),
        ("@(a ##1 b) strong(c)", 2, "a boolean is due here, and `(a ##1 b)` is a sequence".to_string()),
        ("!a[*1:$]", 2, "a boolean is due here, and `a[*1:$]` is a sequence: to repeat the whole, write (!a)[*1:$]".to_string()),
        ("c ##1 a & b[*1:$]", 11, "a boolean is due here, and `b[*1:$]` is a sequence: to repeat the whole, write (a & b)[*1:$]".to_string()),
        ("a | !b[*0]", 6, "a boolean is due here, and `b[*0]` is a sequence: to repeat the whole, write (!b)[*0]".to_string()),
        ("a[*1:$] & b", 1, "a boolean is due here, and `a[*1:$]` is a sequence".to_string()),
        ("a & (b ##1 c)", 5, "a boolean is due here, and `(b ##1 c)` is a sequence".to_string()),
        ("!strong(a)", 2, "a boolean is due here, and `strong(a)` is a property: a property is turned round by not".to_string()),
        ("strong(a) & strong(b)", 1, "a boolean is due here, and `strong(a)` is a property: properties are joined by and".to_string()),
        ("a | strong(b)", 5, "a boolean is due here, and `strong(b)` is a property: properties are joined by or".to_string()),
    ];
    for (text, column, words) in cases {
        assert_eq!(mistake(text), (2, column, words), "{text}");
    }
}

#[test]
fn an_operator_that_makes_a_property_is_named_where_a_sequence_is_due() {
    let until = ": there `a until b` is written `((a)[*0] or (a)[*1:$]) ##1 b`";
    let cases = [
        (
            "strong(not a ##1 b)",
            8,
            "not",
            ": a boolean is turned round by !",
        ),
        ("strong(!a until b)", 11, "until", until),
        (
            "weak(a ##1 (b and c))",
            15,
            "and",
            ": booleans are joined by &",
        ),
        ("a ##1 nexttime b", 7, "nexttime", ""),
        (
            "strong(@(c) a or not b)",
            18,
            "not",
            ": a boolean is turned round by !",
        ),
        ("weak(a |-> strong(b))", 8, "|->", ""),
        ("a ##1 nexttime b |=> strong(c)", 7, "nexttime", ""),
    ];
    let due = "a sequence is due here, as everywhere in strong(..), in weak(..) and left of |->, |=>, #-# and #=#";
    for (text, column, operator, hint) in cases {
        let words = format!("`{operator}` makes a property, and {due}{hint}");
        assert_eq!(mistake(text), (2, column, words), "{text}");
    }
    // what the message says to write
    assert!(read(&declared("strong(((!a)[*0] or (!a)[*1:$]) ##1 b)")).is_ok());
}

#[test]
fn a_word_that_is_no_operator_is_told_before_the_sort_of_what_it_follows() {
    let expected = "an operator was expected, and here stands";
    let with = "`!b until_with c` is written `strong(!b) until (strong(!b) and strong(c))`; strong must match in the record, weak must only not be ruled out";
    let cases = [
        ("a |-> b before c", 9, format!("{expected} `before`")),
        ("a |-> b c", 9, format!("{expected} `c`")),
        ("a |-> !b until_with c", 10, with.to_string()),
        (
            "strong(a) and b || c",
            17,
            "booleans are joined by |".to_string(),
        ),
    ];
    for (text, column, words) in cases {
        assert_eq!(mistake(text), (2, column, words), "{text}");
    }
    // not so what begins another line, or does not follow the part that is wrong
    for text in ["a |-> b\nc |-> strong(d)", "a until strong(b) before c"] {
        let (.., words) = mistake(text);
        assert!(
            words.starts_with("a property is due here, and `"),
            "{words}"
        );
    }
}

#[test]
fn what_was_expected_is_said_at_its_place() {
    let cases = [
        ("", 1, 24, "an assertion was expected, and the text ends without one"),
        ("strong(a ##1 b", 2, 15, "a closing parenthesis was expected, to match line 2, column 7"),
        ("strong((a\n  ##1 b)\n\n", 3, 9, "a closing parenthesis was expected, to match line 2, column 7"),
        ("strong(a b)", 2, 10, "an operator, or a parenthesis to close that of line 2, column 7, was expected, and here stands `b`"),
        ("strong(a))", 2, 10, "this closing parenthesis closes nothing"),
        (")", 2, 1, "a sequence or a property was expected, and here stands `)`"),
        ("()", 2, 2, "a sequence or a property was expected, and here stands `)`"),
        ("strong()", 2, 8, "a sequence was expected, and here stands `)`"),
        ("strong a", 2, 8, "( after strong was expected, and here stands `a`"),
        ("a ##1", 2, 6, "a sequence was expected, and the text ends here"),
        ("strong(a) and\n\n", 2, 14, "a property was expected, and the text ends here"),
        ("strong(a) and and strong(b)", 2, 15, "a property was expected, and here stands `and`"),
        ("a & | b", 2, 5, "a boolean was expected, and here stands `|`"),
        ("a b", 2, 3, "an operator or the end of the text was expected, and here stands `b`"),
        ("@c strong(a)", 2, 2, "(c) after @, a clock condition, was expected, and here stands `c`"),
        ("2", 2, 1, "the constants are 0 and 1, and here stands `2`"),
        ("strong(1'b1)", 2, 8, "the constants are 0 and 1, and here stands `1'b1`: write 1"),
        ("strong(a)\nstrong(b)", 3, 1, "a text says one assertion, and here begins another: `(P) and (Q)` joins two properties"),
        ("a |-> strong(b)\n\n  c |-> strong(d)", 4, 3, "a text says one assertion, and here begins another: `(P) and (Q)` joins two properties"),
        ("strong(a)\nuntl strong(b)", 3, 1, "an operator or the end of the text was expected, and here stands `untl`: did you mean until?"),
        ("a[*1:$ ##1 b", 2, 8, "a closing ] after a repetition or a delay was expected, and here stands `##`"),
        ("a[*1:$ & b & c", 2, 8, "a closing ] after a repetition or a delay was expected, and here stands `&`"),
        ("strong(a) \u{1b}[31m", 2, 11, "the character U+001B is not part of the notation"),
        ("strong(a) \u{200b}", 2, 11, "the character U+200B is not part of the notation"),
        ("a |→ strong(b)", 2, 4, "`→` (U+2192) is not part of the notation"),
        ("strong(“a”)", 2, 8, "`“` (U+201C) is not part of the notation"),
        ("strong(a) \"", 2, 11, "`\"` is not part of the notation"),
    ];
    for (text, line, column, words) in cases {
        assert_eq!(mistake(text), (line, column, words.to_string()), "{text}");
    }
}

#[test]
fn a_name_that_is_not_declared_gets_the_nearest() {
    let words = |text: &str| read(text).unwrap_err().words;
    assert_eq!(
        words("signals ack strobe\nstrong(strob)"),
        "strob is not declared: did you mean strobe?"
    );
    assert_eq!(
        words("signals ack\nlet busy = ack\nstrong(bussy)"),
        "bussy is not declared: did you mean busy?"
    );
    assert_eq!(
        words("signals ack\nstron(ack)"),
        "stron is not declared: did you mean strong?"
    );
    // the words of the notation are in small letters
    assert_eq!(
        words("signals ack\nNEXTTIME strong(ack)"),
        "NEXTTIME is not declared: did you mean nexttime?"
    );
    // and names are told apart by them
    assert_eq!(
        words("signals ack strobe\nstrong(ACK)"),
        "ACK is not declared: did you mean ack?"
    );
    assert_eq!(
        words("signals a\nlet B = a\nstrong(b)"),
        "b is not declared: did you mean B?"
    );
    assert!(words("signals ack\nstrong(ack) OR strong(ack)").ends_with("did you mean or?"));
    assert_eq!(
        words("strong(ack)"),
        "ack is not declared: begin with a line such as `signals ack=0`"
    );
    assert_eq!(
        words("signals ack\nstrong(ack) untill strong(ack)"),
        "an operator or the end of the text was expected, and here stands `untill`: did you mean until?"
    );
}

#[test]
fn what_other_languages_write_gets_a_hint() {
    let cases = [
        ("a ##16 b", 3, "numbers go to 15 at most: `a ##16 b` is written `a ##15 1 ##1 b`"),
        ("a ##[3:1] b", 3, "3 to 1 counts backwards: write 1:3"),
        ("a ##[2] b", 3, "`a ##[2] b` is written `a ##2 b`"),
        ("a ##[2:$] b", 3, "`a ##[2:$] b` is written `(a ##1 1[*1:$] ##1 b)`"),
        ("a |-> ##1 b", 7, "`##1 b` is written `strong(1 ##1 b)` or `weak(1 ##1 b)`: strong must match in the record, weak must only not be ruled out"),
        ("##1 a", 1, "`##1 a` is written `1 ##1 a`"),
        ("always[1:3] strong(a)", 7, "`always[1:3] strong(a)` is written `(1 ##[1:3] 1 |-> strong(a))`"),
        ("a[*1:inf]", 2, "a repetition is written `R[*3]`, `R[*2:5]`, `b[->2]` or `b[=2]`"),
        ("a[*x]", 2, "a repetition is written `R[*3]`, `R[*2:5]`, `b[->2]` or `b[=2]`"),
        ("a[*0:16]", 2, "numbers go to 15 at most: `a[*0:16]` is written `((a[*0] or a)[*15] ##1 (a[*0] or a))`"),
        ("a[*2:1]", 2, "2 to 1 counts backwards: write 1:2"),
        ("a |--> strong(b)", 3, "the implication is written |->, or |=> for the next sample"),
        ("a -> strong(b)", 3, "`a -> strong(b)` is written `a |-> strong(b)`"),
        ("strong(a = 1)", 10, "a signal stands for itself: `a` where it is 1, and `!a` where it is 0"),
        ("a ##[+] b", 3, "`a ##[+] b` is written `(a ##1 (1[*0] or 1[*1:$]) ##1 b)`"),
        ("a ## b", 3, "a delay is written `R ##3 S` or `R ##[1:4] S`"),
        ("a[*2:$]", 2, "`a[*2:$]` is written `(a ##1 a[*1:$])`"),
        ("a[*]", 2, "`a[*]` is written `(a[*0] or a[*1:$])`"),
        ("a[+]", 2, "`a[+]` is written `a[*1:$]`"),
        ("a[*0:$]", 2, "`a[*0:$]` is written `(a[*0] or a[*1:$])`"),
        ("a[->1:2]", 2, "`a[->1:2]` is written `(a[->1] ##1 (a[*0] or ((!a)[*0] or (!a)[*1:$]) ##1 a))`"),
        ("a[=2:$]", 2, "`a[=2:$]` is written `(a[->1] ##1 a[->1][*1:$] ##1 a[=0])`"),
        ("a[3]", 2, "a repetition such as `R[*3]` was expected: a signal has one bit, so each bit of a bus is a signal of its own"),
        ("a && b", 3, "booleans are joined by &, which binds tighter than | (&& binds looser): parentheses help where both stand"),
        ("a || b", 3, "booleans are joined by |"),
        ("~a", 1, "a boolean is turned round by !"),
        ("a == b", 3, "`a == b` is written `((a & b) | (!a & !b))`"),
        ("a != b", 3, "`a != b` is written `((a & !b) | (!a & b))`"),
        ("never strong(a)", 1, "`never strong(a)` is written `always not strong(a)`"),
        ("strong(a) s_until_with strong(b)", 11, "`strong(a) s_until_with strong(b)` is written `strong(a) s_until (strong(a) and strong(b))`"),
        ("eventually strong(a)", 1, "that P comes is said by `s_eventually P`"),
        ("a intersect b", 3, "this operator is not part of the notation: kit table --help lists those that are, and docs/PATTERNS.md has what is often asked, as that one holds until another comes"),
        ("first_match(a)", 1, "this operator is not part of the notation: kit table --help lists those that are, and docs/PATTERNS.md has what is often asked, as that one holds until another comes"),
        ("a throughout b", 3, "this operator is not part of the notation: kit table --help lists those that are, and docs/PATTERNS.md has what is often asked, as that one holds until another comes"),
        ("disable iff (a) strong(b)", 1, "resets are not part of the notation and are left out: judge a record that begins after the reset, as `kit record --from TIME` takes it, and ends before the next one, by its `--to TIME`"),
        ("strong(a) implies strong(b)", 11, "`strong(a) implies strong(b)` is written `(not strong(a)) or strong(b)`"),
        ("# a comment", 1, "comments begin with //, delays are written ##1 and ##[1:3], and #-# and #=# are written without blanks"),
        ("a #- # strong(b)", 3, "comments begin with //, delays are written ##1 and ##[1:3], and #-# and #=# are written without blanks"),
        ("@(posedge a) strong(b)", 3, "`posedge a` is written `rose(a)`, as in `@(rose(a))`: a is 1, and was 0 at the sample before, so it sees the values after the edge; SystemVerilog sees those before it, as `kit record --on \"posedge a\"` samples them, and then the clock is left out"),
        ("@(negedge a) strong(b)", 3, "`negedge a` is written `fell(a)`, as in `@(fell(a))`: a is 0, and was 1 at the sample before, so it sees the values after the edge; SystemVerilog sees those before it, as `kit record --on \"negedge a\"` samples them, and then the clock is left out"),
        ("@(edge a) strong(b)", 3, "`edge a` is written `rose(a) | fell(a)`, as in `@(rose(a) | fell(a))`: a is not as it was at the sample before, so it sees the values after the edge; SystemVerilog sees those before it, as `kit record --on \"edge a\"` samples them, and then the clock is left out"),
        ("strong(a);", 10, "leave ; out: a declaration ends with its line, and the assertion with the text"),
        ("assert property (strong(a))", 1, "the assertion stands alone, without `assert property (..);`, a name or an action block around it: write `always (strong(a))`, where always asks at every sample, and under a clock at every tick"),
        ("strong($rose(a))", 8, "`$rose(a)` is written `rose(a)`, and goes by the sample before, not by the clock tick before"),
        ("strong($rose(a, @(posedge b)))", 8, "`$rose(a)` is written `rose(a)`, and goes by the sample before, not by the clock tick before"),
        ("@(c) $fell(a) |-> strong(b)", 6, "`$fell(a)` is written `fell(a)`, and goes by the sample before, not by the clock tick before"),
        ("$stable(a)", 1, "`$stable(a)` is written `!(rose(a) | fell(a))`, and goes by the sample before, not by the clock tick before"),
        ("a & $changed(b)", 5, "`$changed(b)` is written `(rose(b) | fell(b))`, and goes by the sample before, not by the clock tick before"),
        ("a |-> strong($past(b))", 14, "`$past(b)` is written `(fell(b) | b & !rose(b))`, and goes by the sample before, not by the clock tick before"),
        ("$onehot(a)", 1, "functions are not part of the notation, but for `rose(a)` and `fell(a)` of a signal, which stand without $"),
    ];
    for (text, column, words) in cases {
        assert_eq!(mistake(text), (2, column, words.to_string()), "{text}");
    }
    // a signal with such a name is a signal
    assert!(read("signals s_always\nstrong(s_always)").is_ok());
}

/// b[->m] and b[=m] count samples, and so take a boolean.
#[test]
fn what_waits_is_a_boolean() {
    let count = "b[->m] and b[=m] count samples that satisfy a boolean";
    for text in ["(a ##1 b)[->2]", "(a ##1 b)[=2]"] {
        let words = format!("a boolean is due here, and `(a ##1 b)` is a sequence: {count}");
        assert_eq!(mistake(text), (2, 1, words), "{text}");
    }
    let words = format!("a boolean is due here, and `a[*2]` is a sequence: {count}");
    assert_eq!(mistake("a[*2][->2]"), (2, 1, words));
}

#[test]
fn a_mistake_is_shown_with_a_caret() {
    let shown = |text: &str| read(text).unwrap_err().to_string();
    assert_eq!(
        shown("signals a b\n\n\tstrong(a\t##1 b"),
        "3:16: a closing parenthesis was expected, to match line 3, column 8\n\
         \x20 \tstrong(a\t##1 b\n\
         \x20 \t        \t     ^"
    );
    assert_eq!(
        shown("signals a\r\nstrong(a ##1 q)\r\n"),
        "2:14: q is not declared: a line with signals names each signal\n  strong(a ##1 q)\n               ^"
    );
    assert_eq!(
        shown(""),
        "1:1: an assertion was expected, and the text ends without one"
    );
    // characters count, not bytes; a mark of the byte order does not
    assert_eq!(
        shown("\u{feff}signals größe; x"),
        "1:14: leave ; out: a declaration ends with its line, and the assertion with the text\n  signals größe; x\n               ^"
    );
    // a character of East Asia takes two cells: 7, 4, 5 and the blank after `##1` are 17
    assert_eq!(
        shown("signals 信号 a\nstrong(信号 ##1 写 ##1 a)"),
        "2:15: 写 is not declared: a line with signals names each signal\n  strong(信号 ##1 写 ##1 a)\n                  ^"
    );
    // what turns the direction of writing is not shown either
    assert!(!shown("signals a\nstrong(a) \u{202e} b").contains('\u{202e}'));
    // nothing reaches the terminal that could upset it
    assert!(!shown("signals a\nstrong(a) \u{1b}[31m").contains('\u{1b}'));
}

#[test]
fn a_long_line_is_cut_around_the_place() {
    let text = format!(
        "signals a\n{}q{}",
        "a ##1 ".repeat(100),
        " ##1 a".repeat(100)
    );
    let mistake = read(&text).unwrap_err();
    // 120 nodes are reached before the q: 1 signal, and 2 nodes for each a after the first
    assert_eq!(
        mistake.words,
        "the table would have more than 120 nodes, and 120 is the most"
    );
    let text = format!("signals a\n{}q{}", " ".repeat(500), " ##1 a".repeat(100));
    let shown = read(&text).unwrap_err().to_string();
    let lines: Vec<&str> = shown.lines().collect();
    assert_eq!(
        lines[0],
        "2:501: q is not declared: a line with signals names each signal"
    );
    assert!(
        lines[1].starts_with("  .. ") && lines[1].ends_with(" .."),
        "{shown}"
    );
    let place = lines[2].chars().count() - 1;
    assert_eq!(lines[1].chars().nth(place), Some('q'), "{shown}");
    assert!(lines[1].chars().count() < 120);
}
