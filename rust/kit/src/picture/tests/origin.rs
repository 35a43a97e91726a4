//! What the picture is made of, at its lower end.
use super::words::words_fit;
use super::*;

/// The flush with an origin.
fn made_of(origin: &[(&str, &str)]) -> Scene {
    let entry = |(label, words): &(&str, &str)| (label.to_string(), words.to_string());
    Scene {
        origin: origin.iter().map(entry).collect(),
        ..flush(&[0, 1, 0])
    }
}

/// The texts of the origin with their places.
fn lines(scene: &Scene) -> Vec<(String, f64, f64)> {
    let drawn = drawn(scene);
    assert_eq!(words_fit(&drawn), Ok(()));
    let texts = of_class(&drawn, "origin").into_iter();
    let texts = texts.filter(|element| element.tag == "text");
    let line = |text: &Element| (text.text.clone(), text.number("x"), text.number("y"));
    texts.map(line).collect()
}

#[test]
fn without_an_origin_nothing_is_drawn() {
    let none = flush(&[0, 1, 0]);
    assert_eq!(of_class(&drawn(&none), "origin").len(), 0);
    // the levels end at 324, three lines of the legend begin at 336, and the margin is 16
    assert_eq!(drawn(&none)[0].get("height"), "412");
}

#[test]
fn each_entry_has_its_label_and_words() {
    let scene = made_of(&[("table", "flush.txt  sha256 0123"), ("kit", "0.2.0")]);
    // the legend ends at 396 and the origin begins 8 below it; the words stand right of 7 cells of 6, and 1
    let wanted = [
        ("table", 16.0, 414.0),
        ("flush.txt sha256 0123", 59.0, 414.0),
        ("kit", 16.0, 428.0),
        ("0.2.0", 59.0, 428.0),
    ];
    let wanted = wanted.map(|(text, x, y)| (text.to_string(), x, y));
    assert_eq!(lines(&scene), wanted);
    let drawn = drawn(&scene);
    assert_eq!(drawn[0].get("height"), "448");
    let words = drawn.iter().find(|it| it.get("id") == "kit-words").unwrap();
    let end = "; still open. table: flush.txt  sha256 0123. kit: 0.2.0.";
    assert!(words.text.ends_with(end), "{}", words.text);
}

#[test]
fn long_words_are_wrapped_below_their_first_line() {
    let digits = "0123456789abcdef".repeat(4);
    let path = "d/".repeat(26);
    // from 59 to 704 there is room for 107 cells: the first has 38 + 5 + 64, the second one more
    let fits = format!("{} sha {}", &path[..38], digits);
    let longer = format!("{} sha {}", &path[..39], digits);
    let long = lines(&made_of(&[("table", &fits), ("table", &longer)]));
    let texts: Vec<&str> = long.iter().map(|(text, ..)| text.as_str()).collect();
    let first = format!("{} sha", &path[..39]);
    assert_eq!(texts, ["table", &fits, "table", &first, &digits]);
    assert_eq!((long[4].1, long[4].2), (59.0, 442.0));
    // a word that is longer than a line is divided, and nothing of it is lost
    let endless = "x".repeat(1000);
    let parts = lines(&made_of(&[("a label that is too long", &endless)]));
    assert_eq!(parts[0].0, "a labe… long");
    let parts: String = parts[1..].iter().map(|(text, ..)| text.as_str()).collect();
    assert_eq!(parts, endless);
}
