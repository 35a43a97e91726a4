//! The comment at the head of a text, which says to people what the assertion says.
use super::without_mark;
use crate::words;

/// The comment lines before the first word of a text, as one paragraph; none where they say nothing.
pub fn comment(text: &str) -> Option<String> {
    let mut rest = without_mark(text).trim_start();
    let mut said: Vec<&str> = Vec::new();
    while let Some(comment) = rest.strip_prefix("//") {
        let end = comment.find(['\n', '\r']).unwrap_or(comment.len());
        let (line, after) = comment.split_at_checked(end).unwrap_or((comment, ""));
        said.extend(line.trim_start_matches('/').split_whitespace());
        rest = after.trim_start();
    }
    let said = said.join(" ");
    let paragraph: String = said.chars().map(words::printable).collect();
    Some(paragraph).filter(|paragraph| !paragraph.is_empty())
}
