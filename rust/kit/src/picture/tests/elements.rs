//! A small reader of XML that asks for all that makes a picture well-formed.
use std::collections::HashSet;

/// An element with its attributes, the text directly in it, and the classes of those around it.
#[derive(Clone, Debug, Default)]
pub struct Element {
    pub tag: String,
    pub attributes: Vec<(String, String)>,
    pub text: String,
    pub around: Vec<String>,
}

impl Element {
    /// The value of an attribute, empty where there is none.
    pub fn get(&self, name: &str) -> &str {
        let found = self.attributes.iter().find(|(known, _)| known == name);
        found.map_or("", |(_, value)| value)
    }

    /// The value of an attribute that is a number.
    pub fn number(&self, name: &str) -> f64 {
        self.get(name).parse().unwrap()
    }
}

/// The elements of an SVG in the order in which they begin, or why it is not well-formed.
pub fn elements(svg: &str) -> Result<Vec<Element>, String> {
    let mut found: Vec<Element> = Vec::new();
    let mut open: Vec<usize> = Vec::new();
    let mut rest = svg;
    while let Some((text, more)) = rest.split_once('<') {
        let (tag, more) = more.split_once('>').ok_or("a tag is not ended")?;
        rest = more;
        add_text(text, &mut found, &open)?;
        if is_comment(tag)? {
            continue;
        }
        if let Some(name) = tag.strip_prefix('/') {
            let last = open.pop().ok_or(format!("</{name}> ends nothing"))?;
            if found[last].tag != name {
                return Err(format!("</{name}> ends <{}>", found[last].tag));
            }
            continue;
        }
        if open.is_empty() && !found.is_empty() {
            return Err("a second root".to_string());
        }
        let (inner, empty) = tag
            .strip_suffix('/')
            .map_or((tag, false), |tag| (tag, true));
        let mut element = element(inner)?;
        let around = open
            .iter()
            .map(|index| found[*index].get("class").to_string());
        element.around = around.collect();
        if !empty {
            open.push(found.len());
        }
        found.push(element);
    }
    match open.is_empty() && rest.trim().is_empty() && !found.is_empty() {
        true => Ok(found),
        false => Err("something is left open, or text follows".to_string()),
    }
}

/// Whether a tag is a comment. Its text has no `--` and no `>`.
fn is_comment(tag: &str) -> Result<bool, String> {
    let Some(inner) = tag.strip_prefix("!--") else {
        return Ok(false);
    };
    match inner
        .strip_suffix("--")
        .is_some_and(|text| !text.contains("--"))
    {
        true => Ok(true),
        false => Err(format!("<{tag}> is no comment")),
    }
}

fn add_text(text: &str, found: &mut [Element], open: &[usize]) -> Result<(), String> {
    let text = plain(text)?;
    match open.last() {
        Some(last) => found[*last].text.push_str(&text),
        None if text.trim().is_empty() => {}
        None => return Err(format!("{text:?} stands outside of the root")),
    }
    Ok(())
}

/// A tag with its attributes, all of which have a name of their own and a quoted value.
fn element(inner: &str) -> Result<Element, String> {
    let (tag, mut rest) = inner.split_once(' ').unwrap_or((inner, ""));
    let mut element = Element {
        tag: name(tag)?,
        ..Element::default()
    };
    while !rest.is_empty() {
        let (key, more) = rest
            .split_once("=\"")
            .ok_or(format!("{rest:?}: no value"))?;
        let (value, more) = more.split_once('"').ok_or(format!("{more:?}: no end"))?;
        let key = name(key)?;
        if element.attributes.iter().any(|(known, _)| *known == key) {
            return Err(format!("{key} stands twice"));
        }
        element.attributes.push((key, plain(value)?));
        rest = match more.strip_prefix(' ') {
            Some(more) => more,
            None if more.is_empty() => more,
            None => return Err(format!("{more:?} follows a value")),
        };
    }
    Ok(element)
}

fn name(text: &str) -> Result<String, String> {
    let fits = |c: char| c.is_ascii_alphanumeric() || c == '-';
    match !text.is_empty() && text.chars().all(fits) {
        true => Ok(text.to_string()),
        false => Err(format!("{text:?} is no name")),
    }
}

/// Text without its entities. Every & must begin one, and every character must be one of XML 1.0.
fn plain(text: &str) -> Result<String, String> {
    let allowed = |c: char| c == '\n' || (c >= ' ' && c != '\u{fffe}' && c != '\u{ffff}');
    if let Some(bad) = text.chars().find(|c| !allowed(*c) || *c == '<') {
        return Err(format!("{bad:?} in {text:?}"));
    }
    let mut pieces = text.split('&');
    let mut plain = pieces.next().unwrap_or_default().to_string();
    for piece in pieces {
        let (entity, rest) = piece
            .split_once(';')
            .ok_or(format!("a raw & in {text:?}"))?;
        plain.push(match entity {
            "amp" => '&',
            "lt" => '<',
            "gt" => '>',
            "quot" => '"',
            "apos" => '\'',
            _ => return Err(format!("&{entity}; is no entity of XML")),
        });
        plain.push_str(rest);
    }
    Ok(plain)
}

/// Asks that a picture names only what is in it: no id twice, no reference to anything else, and
/// nothing that runs.
pub fn stands_alone(elements: &[Element]) -> Result<(), String> {
    let ids = elements.iter().map(|element| element.get("id"));
    let ids: Vec<&str> = ids.filter(|id| !id.is_empty()).collect();
    let known: HashSet<&str> = ids.iter().copied().collect();
    if known.len() != ids.len() {
        return Err(format!("an id stands twice: {ids:?}"));
    }
    for (key, value) in elements.iter().flat_map(|element| &element.attributes) {
        let reference = value
            .strip_prefix("url(#")
            .and_then(|v| v.strip_suffix(')'));
        let outside = (value.contains("url(") && reference.is_none_or(|id| !known.contains(id)))
            || key.contains("href")
            || key.starts_with("on")
            || (value.contains("://") && key != "xmlns");
        if outside {
            return Err(format!("{key}={value:?}"));
        }
    }
    let runs = |element: &&Element| ["script", "style", "image"].contains(&element.tag.as_str());
    elements
        .iter()
        .find(runs)
        .map_or(Ok(()), |bad| Err(format!("<{}>", bad.tag)))
}

#[test]
fn the_reader_refuses_what_is_not_well_formed() {
    let bad = [
        "",
        "text",
        "<a>",
        "<a></b>",
        "</a>",
        "<a/><b/>",
        "<a b=c/>",
        "<a b='c'/>",
        "<a b=\"c/>",
        "<a b=\"1\" b=\"2\"/>",
        "<a b=\"1\"c=\"2\"/>",
        "<a>&</a>",
        "<a>&nbsp;</a>",
        "<a>\u{1}</a>",
        "<a b=\"<\"/>",
        "<a/>text",
        "<a",
        "<a><b></a></b>",
        "<a><!-- b --c --></a>",
        "<a><!-- b ></a>",
        "<a><!b></a>",
    ];
    for text in bad {
        assert!(elements(text).is_err(), "{text:?}");
    }
    let good = elements("<a b=\"1 &lt; 2\"><!-- c --><c/>x &amp; y</a>\n").unwrap();
    assert_eq!(good[0].get("b"), "1 < 2");
    assert_eq!(good[0].text, "x & y");
    assert_eq!(good[1].tag, "c");
}
