//! docs/NOTATION.md says what is so.
use super::*;
use crate::assertion::Operator;

const PAGE: &str = include_str!("../../../../../docs/NOTATION.md");

/// The first indented block after a line that begins with some words.
fn block(after: &str) -> String {
    let lines = PAGE.lines().skip_while(|line| !line.starts_with(after));
    let lines = lines.skip_while(|line| !line.starts_with("    "));
    let block = lines.take_while(|line| line.is_empty() || line.starts_with("    "));
    let lines: Vec<&str> = block.map(|line| line.get(4..).unwrap_or("")).collect();
    lines.join("\n")
}

#[test]
fn the_example_is_read_and_written_the_same() {
    let text = block("# The notation");
    let read = read(&text).unwrap();
    let code: Vec<&str> = text
        .lines()
        .filter(|line| !line.starts_with("//"))
        .collect();
    let written = write(&read.assertion, &read.names);
    assert_eq!(written.trim_end(), code.join("\n").trim_end());
}

#[test]
fn the_mistake_is_the_one_that_is_shown() {
    let text = block("# The notation").replace("(!drop)[", "!drop[");
    let shown = format!("kit table: bad.txt:{}", read(&text).unwrap_err());
    let page = block("## A mistake");
    let (_, page) = page.split_once('\n').unwrap();
    assert_eq!(shown, page.trim_end());
}

#[test]
fn the_table_of_levels_has_the_documents_numbers() {
    for number in (2..=4).chain(17..=26).chain(34..=47) {
        let operator = Operator::of(number).unwrap();
        let sign = match operator {
            Operator::Not => "`!b`",
            Operator::And => "`b & b`",
            Operator::Or => "`b \\| b`",
            Operator::Then => "`R ##1 R`",
            Operator::Fused => "`R ##0 R`",
            Operator::Either => "`R or R`",
            Operator::Empty => "`R[*0]`",
            Operator::Repeated => "`R[*1:$]`",
            Operator::ClockedSequence => "`@(b) R`",
            Operator::PropertyNot => "`not P`",
            Operator::PropertyOr => "`P or P`",
            Operator::PropertyAnd => "`P and P`",
            Operator::Implies => "`R \\|-> P`",
            Operator::Nexttime => "`nexttime P`",
            Operator::Until => "`P until P`",
            Operator::ClockedProperty => "`@(b) P`",
            Operator::Times => "`R[*m:n]`",
            Operator::Delay => "`R ##[m:n] R`",
            Operator::Goto => "`b[->m]`",
            Operator::Nonconsecutive => "`b[=m]`",
            Operator::ImpliesNext => "`R \\|=> P`",
            Operator::Followed => "`R #-# P`",
            Operator::FollowedNext => "`R #=# P`",
            Operator::Always => "`always P`",
            Operator::Eventually => "`s_eventually P`",
            Operator::StrongUntil => "`P s_until P`",
            Operator::StrongNexttime => "`s_nexttime P`",
            other => panic!("{other:?} is in no row"),
        };
        let row = PAGE
            .lines()
            .find(|line| line.starts_with('|') && line.contains(sign));
        let row = row.unwrap_or_else(|| panic!("{sign} has no row"));
        let cells: Vec<&str> = row.split(" | ").collect();
        let numbers: Vec<&str> = cells[1].split(", ").collect();
        assert!(numbers.contains(&number.to_string().as_str()), "{row}");
    }
    assert_eq!([Operator::Rose as u8, Operator::Fell as u8], [5, 6]);
    assert!(PAGE.contains("`rose(a)` and `fell(a)` are 5 and 6"));
    for word in RESERVED {
        assert!(PAGE.contains(&format!("`{word}`")), "{word}");
    }
}

#[test]
fn the_page_says_how_other_operators_are_written() {
    for hint in [
        hints::of("never").unwrap(),
        hints::of("$past").unwrap(),
        hints::repetition("*0:$"),
        hints::repetition("->1:3"),
        hints::leading_delay("2"),
        hints::prefix("always", "1:9"),
        hints::prefix("nexttime", "2"),
        hints::prefix("eventually", "1:3"),
    ] {
        let (form, instead) = meanings::written(hint).unwrap();
        let said = format!("`{form}` is `{instead}`");
        assert!(PAGE.contains(&said), "{said}");
    }
}

#[test]
fn what_is_easily_misread_is_read_as_the_page_says() {
    let (a, b) = ("strong(a)", "strong(b)");
    for (text, reading) in [
        (format!("not {a} until {b}"), format!("(not {a}) until {b}")),
        (
            format!("c |-> {a} until strong(0)"),
            format!("c |-> ({a} until strong(0))"),
        ),
        (
            format!("@(c) {a} until {b}"),
            format!("@(c) ({a} until {b})"),
        ),
        (format!("always c |=> {a}"), format!("always (c |=> {a})")),
        (
            format!("always {a} and always {b}"),
            format!("always ({a} and (always {b}))"),
        ),
        (format!("c |-> c |=> {a}"), format!("c |-> c |=> {a}")),
    ] {
        let read = read(&declared(&text)).unwrap();
        let written = write(&read.assertion, &read.names);
        assert!(written.ends_with(&format!("\n{reading}\n")), "{written}");
    }
}

/// a at a tick of c, then b at a tick of d, then a tick of c: the right side is asked from the last, where no tick
/// of d comes any more. SystemVerilog asks it from sample 1 on.
#[test]
fn across_two_clocks_it_is_asked_as_the_page_says() {
    let mut judge = xistomar::Judge::new();
    for (text, level) in [
        ("@(c) (a |=> @(d) strong(b))", 1),
        ("(@(c) a) ##1 (@(1) 1) |-> @(d) strong(b)", 3),
    ] {
        assert!(PAGE.contains(&format!("`{text}`")), "{text}");
        let judged = judge.judge(&table(text), &[5, 10, 4]).unwrap();
        assert_eq!(judged.level as u8, level, "{text}");
    }
}
