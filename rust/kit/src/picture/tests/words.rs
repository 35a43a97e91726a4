//! The words of a picture: what they say, that they fit, and that they can be read.
use super::super::style::{DARK, GREY, PALE, TINT};
use super::super::text::{cells, shorten, wrap};
use super::*;
use crate::notation;

#[test]
fn the_heading_says_the_programs_line_the_meaning_and_the_assertion() {
    let open = drawn(&flush(&[0, 1, 0]));
    assert_eq!(texts(&open, "line"), ["level 1 tested yes"]);
    assert_eq!(texts(&open, "meaning"), ["nothing broken, still waiting"]);
    assert_eq!(texts(&open, "assertion"), ["the assertion"]);
}

#[test]
fn the_heading_says_what_was_not_asked() {
    let heading = |assertion: &str, samples: &[u64]| {
        let read = notation::read(&format!("signals a b\n{assertion}")).unwrap();
        let drawn = drawn(&scene(&read.assertion.table(), &["a", "b"], samples));
        (
            texts(&drawn, "line").concat(),
            texts(&drawn, "meaning")[1..].concat(),
        )
    };
    let said = |line: &str, more: &str| (line.to_string(), more.to_string());
    let untested = "not tested: no strong and no weak was reached";
    assert_eq!(
        heading("a |-> strong(b)", &[2]),
        said("level 3 tested no", untested)
    );
    let both = "(a |-> strong(b)) and (b |-> strong(b))";
    let unasked = "tested, but not every |-> was asked";
    assert_eq!(heading(both, &[2]), said("level 3 tested yes", unasked));
    assert_eq!(heading(both, &[3]), said("level 3 tested yes", ""));
    // the operators that were written: a without b at sample 0, and nothing after it
    let others = "(a |=> strong(b)) and ((b #-# strong(a)) or strong(a))";
    let unasked = "tested, but not every |=> or #-# was asked";
    assert_eq!(heading(others, &[1]), said("level 2 tested yes", unasked));
}

#[test]
fn who_hears_the_picture_hears_the_verdict() {
    let drawn = drawn(&flush(&[0, 1, 0, 2, 4]));
    assert_eq!(drawn[0].get("role"), "img");
    assert_eq!(drawn[0].get("aria-labelledby"), "kit-title kit-words");
    let said = |id: &str| {
        drawn
            .iter()
            .find(|e| e.get("id") == id)
            .unwrap()
            .text
            .clone()
    };
    assert_eq!(
        said("kit-title"),
        "level 0 tested yes: broken, whatever comes next"
    );
    let description = "Assertion: the assertion. Tested: the record put the assertion to the test. \
                       Asked: ack |-> strong((!drop)[*1:$] ##0 strobe), reached from samples 0 to 1: its \
                       left side matched at sample 1. Samples: 5. Level at the start and after each \
                       sample: 2 2 1 1 0 0; closed at sample 3.";
    assert_eq!(said("kit-words"), description);
}

#[test]
fn who_hears_the_picture_hears_the_times_the_mark_and_the_origin() {
    let mut scene = scene_of(FLUSH, &Names::of(&["ack", "drop", "strobe"]), &[0, 1, 2]);
    scene.times = ["5 ns", "", "25 ns"].map(String::from).to_vec();
    scene.origin = vec![("kit".to_string(), "0.2.0".to_string())];
    let drawn = drawn(&scene);
    let description = drawn.iter().find(|e| e.get("id") == "kit-words").unwrap();
    let end = "Samples: 3. Times of the samples: 5 ns, not known, 25 ns. Level at the start and after each \
               sample: 2 2 1 0; closed at sample 2, 25 ns. Mark of the decisive part: asked at 1, broken at \
               2 (25 ns). kit: 0.2.0.";
    assert!(description.text.ends_with(end), "{}", description.text);
}

#[test]
fn the_second_line_says_who_wrote_it() {
    for scene in [flush(&[]), flush(&[0, 1, 2])] {
        let svg = draw(&scene);
        let lines: Vec<&str> = svg.lines().take(3).collect();
        assert!(lines[0].starts_with("<svg ") && lines[0].ends_with('>'));
        assert!(lines[1].starts_with("<!-- written by kit picture, SHA-256 of the other lines "));
        assert!(lines[2].starts_with("<title "));
    }
}

#[test]
fn the_legend_has_the_levels_and_the_marks() {
    let drawn = drawn(&flush(&[]));
    assert_eq!(texts(&drawn, "key"), ["3", "2", "1", "0"]);
    let words = [
        "held, whatever comes next",
        "held as the record stands; what comes next may break it",
        "nothing broken, still waiting",
        "broken, whatever comes next",
        "clock tick",
        "level closed",
        "right side asked",
        "implication only reached",
    ];
    assert_eq!(texts(&drawn, "legend"), words);
}

#[test]
fn names_are_escaped_and_lose_what_xml_does_not_allow() {
    let odd = "<&>\"'\u{1}\u{ffff}é";
    let drawn = drawn(&scene(&strong_a(), &[odd], &[1]));
    assert_eq!(texts(&drawn, "name"), ["sample", "<&>\"'é", "level"]);
    let svg = draw(&scene(&strong_a(), &[odd], &[1]));
    assert!(svg.contains(">&lt;&amp;&gt;&quot;&apos;é</text>"));
}

#[test]
fn a_long_name_is_shortened_and_stands_whole_in_a_title() {
    let long = format!("{}{}", "a".repeat(100), "b".repeat(100));
    let drawn = drawn(&scene(&strong_a(), &[&long], &[1]));
    // 28 cells: 14 of the beginning, the dots, 13 of the end
    let shown = format!("{}…{}", "a".repeat(14), "b".repeat(13));
    let label = drawn
        .iter()
        .position(|element| element.text == shown)
        .unwrap();
    assert_eq!(
        (drawn[label + 1].tag.as_str(), &drawn[label + 1].text),
        ("title", &long)
    );
    let fits = "c".repeat(28);
    let fitting = super::drawn(&scene(&strong_a(), &[&fits], &[1]));
    assert!(texts(&fitting, "name").contains(&fits));
    assert_eq!(
        fitting
            .iter()
            .filter(|element| element.tag == "title")
            .count(),
        1
    );
}

#[test]
fn shortening_counts_wide_characters_twice() {
    assert_eq!(shorten("abcdef", 6), "abcdef");
    assert_eq!(shorten("abcdefg", 6), "abc…fg");
    assert_eq!(cells("写入a"), 5);
    assert_eq!(shorten("写入写入写入", 6), "写…入");
    assert_eq!(shorten("abc", 0), "…");
}

#[test]
fn an_assertion_is_wrapped_at_spaces_and_never_cut_off() {
    assert_eq!(wrap("ab cd  efg", 5), ["ab cd", "efg"]);
    assert_eq!(wrap("a bcdefgh ij", 4), ["a", "bcde", "fgh", "ij"]);
    assert_eq!(wrap("", 5), [""]);
    let mut long = flush(&[0, 1, 0]);
    long.assertion = format!(
        "strong({}) and {}",
        "x".repeat(300),
        "weak(y) or ".repeat(40)
    );
    let lines = texts(&drawn(&long), "assertion");
    // the picture is 720 wide: 676 pixels have room for 93 cells of 7.2
    assert!(lines.iter().all(|line| cells(line) <= 93));
    let without = |text: &str| text.replace(' ', "");
    assert_eq!(without(&lines.concat()), without(&long.assertion));
}

#[test]
fn the_decisive_part_stands_below_the_assertion() {
    let names = Names::of(&["ack", "drop", "strobe"]);
    // acknowledged at sample 1, and the supply drops at sample 2
    let scene = scene_of(FLUSH, &names, &[0, 1, 2]);
    let drawn = drawn(&scene);
    let lines = texts(&drawn, "decisive").join(" ");
    let words =
        "Decisive: strong((!drop)[*1:$] ##0 strobe), asked from sample 1: broken at sample 2";
    assert!(lines.starts_with(words), "{lines}");
    let lowest = |class: &str| {
        values(&drawn, class, "y")
            .iter()
            .map(|y| y.parse().unwrap())
            .max()
    };
    assert!(lowest("decisive") > lowest("assertion") as Option<i32>);
}

#[test]
fn an_endless_assertion_says_how_much_is_left_out() {
    let mut endless = flush(&[]);
    endless.assertion = "x".repeat(93 * 250);
    let lines = texts(&drawn(&endless), "assertion");
    assert_eq!(lines.len(), 201);
    assert_eq!(lines[200], "… and 50 more lines");
}

/// The box of a text: left, right, top, bottom, by 0.6 em a cell.
pub fn extent(text: &Element) -> [f64; 4] {
    let (x, y, size) = (text.number("x"), text.number("y"), text.number("font-size"));
    let width = cells(&text.text) as f64 * size * 0.6;
    let left = match text.get("text-anchor") {
        "start" => x,
        "middle" => x - width / 2.0,
        "end" => x - width,
        other => panic!("{other}"),
    };
    [left, left + width, y - 0.75 * size, y + 0.2 * size]
}

/// Asks that every text lies in the picture and that no two overlap.
pub fn words_fit(drawn: &[Element]) -> Result<(), String> {
    let (width, height) = (drawn[0].number("width"), drawn[0].number("height"));
    let texts = drawn.iter().filter(|element| element.tag == "text");
    let texts: Vec<(&Element, [f64; 4])> = texts.map(|text| (text, extent(text))).collect();
    for (index, (text, [left, right, top, bottom])) in texts.iter().enumerate() {
        if *left < 0.0 || *top < 0.0 || *right > width || *bottom > height {
            return Err(format!("{:?} lies outside", text.text));
        }
        for (other, [l, r, t, b]) in &texts[..index] {
            if left < r && l < right && top < b && t < bottom {
                return Err(format!("{:?} and {:?} overlap", text.text, other.text));
            }
        }
    }
    Ok(())
}

#[test]
fn the_words_fit_at_every_length_and_wherever_it_closes() {
    let long = "n".repeat(200);
    let lists: [&[&str]; 3] = [&["a"], &["写入", "drop"], &[&long, "b", &long[1..]]];
    for count in [0, 1, 2, 5, 9, 10, 20, 36, 37, 45, 63] {
        for list in lists {
            let open = scene(FLUSH, list, &vec![0; count]);
            assert_eq!(words_fit(&drawn(&open)), Ok(()), "{count} samples");
            for closing in [
                0,
                count / 2,
                count.saturating_sub(2),
                count.saturating_sub(1),
            ] {
                let mut samples = vec![0; count];
                samples
                    .iter_mut()
                    .skip(closing)
                    .for_each(|sample| *sample = 3);
                let closed = drawn(&scene(FLUSH, list, &samples));
                assert_eq!(words_fit(&closed), Ok(()), "{count} samples, {closing}");
                assert_eq!(flag_fits(&closed), count > 0);
            }
        }
    }
}

/// Whether there is a flag that lies within the margins of 16 pixels.
fn flag_fits(drawn: &[Element]) -> bool {
    let around = |element: &&Element| {
        element
            .around
            .last()
            .is_some_and(|class| class == "closing")
    };
    let flag = drawn
        .iter()
        .filter(around)
        .find(|element| element.tag == "rect");
    flag.is_some_and(|flag| {
        let (left, width) = (flag.number("x"), flag.number("width"));
        left >= 16.0 && left + width <= drawn[0].number("width") - 16.0
    })
}

/// The contrast of two colours by WCAG 2, from 1 to 21.
fn contrast(one: &str, other: &str) -> f64 {
    let light = |colour: &str| {
        let part = |at: usize| {
            let value = u8::from_str_radix(&colour[at..at + 2], 16).unwrap();
            let value = f64::from(value) / 255.0;
            match value <= 0.04045 {
                true => value / 12.92,
                false => ((value + 0.055) / 1.055).powf(2.4),
            }
        };
        0.2126 * part(1) + 0.7152 * part(3) + 0.0722 * part(5)
    };
    let (one, other) = (light(one) + 0.05, light(other) + 0.05);
    f64::max(one, other) / f64::min(one, other)
}

#[test]
fn every_text_has_contrast_to_what_lies_below_it() {
    assert!((contrast("#000000", "#ffffff") - 21.0).abs() < 0.01);
    for ground in ["#ffffff", PALE, TINT] {
        for ink in [DARK, GREY] {
            assert!(contrast(ink, ground) >= 4.5, "{ink} on {ground}");
        }
    }
    // the flag is dark, all other grounds are those above
    let drawn = drawn(&flush(&[0, 1, 2]));
    for text in drawn.iter().filter(|element| element.tag == "text") {
        let ground = if text.get("class") == "flag" {
            DARK
        } else {
            TINT
        };
        assert!(contrast(text.get("fill"), ground) >= 4.5, "{}", text.text);
    }
}
