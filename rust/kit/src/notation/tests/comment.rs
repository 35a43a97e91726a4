//! The comment at the head of a text.
use super::*;

fn said(text: &str) -> Option<String> {
    // it is passed over where the text is read
    assert!(read_names(text).is_ok(), "{text:?}");
    comment(text)
}

fn is(text: &str, expected: &str) {
    assert_eq!(said(text).as_deref(), Some(expected), "{text:?}");
}

#[test]
fn without_a_comment_there_is_none() {
    for text in [
        "",
        "\n \n",
        "signals a\nstrong(a)",
        "//",
        "// \n//\t\n///\nsignals a",
    ] {
        assert_eq!(said(text), None, "{text:?}");
    }
}

#[test]
fn the_lines_before_the_first_word_are_one_paragraph() {
    is(
        "// A flush\n// is durable.\nsignals a",
        "A flush is durable.",
    );
    // blocks, indented lines, lines that say nothing, and more strokes than two
    is(
        "\n  // one\n//\n//   two  words\n\n\t//three\n/// four\n// \nsignals a",
        "one two words three four",
    );
    // a stroke in the middle stays
    is("// at http://b // c\nsignals a", "at http://b // c");
    // the text may end with it, and begin with a byte order mark
    is("\u{feff}// one", "one");
}

#[test]
fn a_comment_after_the_first_word_is_not_it() {
    assert_eq!(said("signals a // one\n// two\nstrong(a)"), None);
    is("// one\nsignals a // two\n// three", "one");
    assert_eq!(comment("strong(0) // one"), None);
}

#[test]
fn lines_end_in_every_way() {
    is("// one\r\n// two\r\n\r\nsignals a\r\n", "one two");
    // a line that ends with \r alone ends a comment too
    is("// one\r// two\rsignals a", "one two");
}

#[test]
fn what_cannot_be_seen_is_replaced_and_blanks_become_one() {
    is(
        "// a\u{1b}[31m\u{202e}b\0\nsignals a",
        "a\u{fffd}[31m\u{fffd}b\u{fffd}",
    );
    is("// a\tb\u{a0}\u{3000}c\u{2028}d\nsignals a", "a b c d");
    is("// größe 写入\nsignals a", "größe 写入");
}
