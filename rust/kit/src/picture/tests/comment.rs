//! The comment of the text as the picture's title.
use super::words::words_fit;
use super::*;

/// The flush with a comment.
fn commented(comment: &str) -> Scene {
    Scene {
        comment: Some(comment.to_string()),
        ..flush(&[0, 1, 0])
    }
}

#[test]
fn without_a_comment_there_is_no_title() {
    let none = flush(&[0, 1, 0]);
    assert_eq!(texts(&drawn(&none), "comment"), [""; 0]);
    assert_eq!(values(&drawn(&none), "line", "y"), ["32"]);
    assert_eq!(draw(&commented("")), draw(&none));
}

#[test]
fn the_comment_stands_above_the_programs_line() {
    let drawn = drawn(&commented("A flush <is> durable."));
    assert_eq!(texts(&drawn, "comment"), ["A flush <is> durable."]);
    assert_eq!(values(&drawn, "comment", "y"), ["29"]);
    // a line of 19, and 6 more
    assert_eq!(values(&drawn, "line", "y"), ["57"]);
    assert_eq!(values(&drawn, "meaning", "y"), ["79"]);
    let title = drawn.iter().find(|it| it.get("id") == "kit-title").unwrap();
    let words = "level 1 tested yes: nothing broken, still waiting. A flush <is> durable.";
    assert_eq!(title.text, words);
}

#[test]
fn a_long_comment_is_wrapped_and_its_end_left_out() {
    // 688 pixels have room for 75 cells of 9.1: 15 words of 4 with their blanks, less one
    let line = ["word"; 15].join(" ");
    let lines = |count: usize| texts(&drawn(&commented(&"word ".repeat(count))), "comment");
    assert_eq!(lines(15).join("|"), line);
    assert_eq!(lines(16), [line.clone(), "word".to_string()]);
    assert_eq!(lines(90), vec![line.clone(); 6]);
    assert_eq!(lines(91)[6..], ["… and 1 more line"]);
    let endless = drawn(&commented(&"word ".repeat(100_000)));
    assert_eq!(words_fit(&endless), Ok(()));
    // 6667 lines, the last of 10 words
    assert_eq!(texts(&endless, "comment")[6..], ["… and 6661 more lines"]);
    let title = endless
        .iter()
        .find(|it| it.get("id") == "kit-title")
        .unwrap();
    assert!(title.text.ends_with(" word … and 6661 more lines"));
    // 7 lines of 19, and 6 more
    assert_eq!(values(&endless, "line", "y"), ["171"]);
}
