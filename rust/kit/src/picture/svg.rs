//! Writing SVG: elements with quoted attributes and escaped text, and nothing that is left open.
use super::style::Style;
use std::fmt::{self, Display, Write};

/// An attribute's name and value.
pub type Attribute<'a> = (&'a str, &'a dyn Display);

/// An SVG text that is being written. Every element stands on a line of its own.
#[derive(Debug, Default)]
pub struct Svg {
    text: String,
    open: Vec<&'static str>,
}

impl Svg {
    /// Begins an element that holds others, up to [`Svg::close`].
    pub fn open(&mut self, tag: &'static str, attributes: &[Attribute]) {
        self.begin(tag, attributes);
        self.text.push_str(">\n");
        self.open.push(tag);
    }

    /// Ends the element that was opened last.
    pub fn close(&mut self) {
        if let Some(tag) = self.open.pop() {
            self.put(format_args!("</{tag}>\n"));
        }
    }

    /// An element that holds nothing.
    pub fn leaf(&mut self, tag: &str, attributes: &[Attribute]) {
        self.begin(tag, attributes);
        self.text.push_str("/>\n");
    }

    /// An element that holds text.
    pub fn holding(&mut self, tag: &str, attributes: &[Attribute], text: &str) {
        self.begin(tag, attributes);
        self.put(format_args!(">{}</{tag}>\n", Escaped(text)));
    }

    /// Text at a point of its baseline, placed as the style says.
    pub fn words(&mut self, style: &Style, (x, y): (i32, i32), text: &str) {
        self.label(style, (x, y), text, text);
    }

    /// Text as [`Svg::words`] has it, with the whole of it in a title where it is shown shortened.
    pub fn label(&mut self, style: &Style, (x, y): (i32, i32), shown: &str, whole: &str) {
        let attributes: [Attribute; 8] = [
            ("class", &style.class),
            ("x", &x),
            ("y", &y),
            ("font-family", &style.family),
            ("font-size", &style.size),
            ("font-weight", &style.weight),
            ("text-anchor", &style.anchor),
            ("fill", &style.fill),
        ];
        self.begin("text", &attributes);
        self.text.push('>');
        if shown != whole {
            self.put(format_args!("<title>{}</title>", Escaped(whole)));
        }
        self.put(format_args!("{}</text>\n", Escaped(shown)));
    }

    /// The text, with all that is open closed.
    pub fn finish(mut self) -> String {
        while !self.open.is_empty() {
            self.close();
        }
        self.text
    }

    /// A tag and its attributes, without the end of the tag.
    fn begin(&mut self, tag: &str, attributes: &[Attribute]) {
        self.put(format_args!("<{tag}"));
        for (name, value) in attributes {
            let value = value.to_string();
            self.put(format_args!(" {name}=\"{}\"", Escaped(&value)));
        }
    }

    /// Writing to a string never fails.
    fn put(&mut self, text: fmt::Arguments) {
        let _ = self.text.write_fmt(text);
    }
}

/// Text as it stands in XML. Characters that XML 1.0 does not allow are left out.
struct Escaped<'a>(&'a str);

impl Display for Escaped<'_> {
    fn fmt(&self, f: &mut fmt::Formatter<'_>) -> fmt::Result {
        for character in self.0.chars() {
            match character {
                '&' => f.write_str("&amp;")?,
                '<' => f.write_str("&lt;")?,
                '>' => f.write_str("&gt;")?,
                '"' => f.write_str("&quot;")?,
                '\'' => f.write_str("&apos;")?,
                '\t' | '\n' | '\r' => f.write_char(' ')?,
                '\0'..'\u{20}' | '\u{fffe}' | '\u{ffff}' => {}
                _ => f.write_char(character)?,
            }
        }
        Ok(())
    }
}
