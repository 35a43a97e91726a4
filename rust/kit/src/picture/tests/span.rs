//! The mark of the decisive part. With the row `decisive`, which has 8 cells of 7.2, the names of the flush
//! end at 16 + 58 = 74, the start begins at 84 and sample 0 at 132; 3 samples have columns of 80.
use super::super::scene::Span;
use super::words::{extent, words_fit};
use super::*;
use crate::notation;

/// The mark of an assertion over the signals a, b, c.
fn span(assertion: &str, samples: &[u64]) -> Option<(usize, Option<usize>, &'static str)> {
    let read = notation::read(&format!("signals a b c\n{assertion}")).unwrap();
    let scene = scene_of(&read.assertion.table(), &read.names, samples);
    scene
        .span
        .map(|Span { from, closed, came }| (from, closed, came))
}

/// The flush with a mark.
fn marked(samples: &[u64], from: usize, closed: Option<usize>) -> Scene {
    let came = "broken";
    Scene {
        span: Some(Span { from, closed, came }),
        ..flush(samples)
    }
}

#[test]
fn the_mark_goes_from_asked_to_closed() {
    let flush = "always (a |-> strong((!b)[*1:$] ##0 c))";
    assert_eq!(span(flush, &[0, 1, 0, 2, 0]), Some((1, Some(3), "broken")));
    assert_eq!(
        span("strong(a ##1 b)", &[1, 2]),
        Some((0, Some(1), "matched"))
    );
    // its left side can no longer match: nothing was asked
    assert_eq!(span("a |-> strong(b)", &[0, 0]), Some((0, Some(0), "held")));
    // the whole assertion is decisive: both sides of the or are broken, the second at sample 1
    let both = "strong(a) or strong(1 ##1 b)";
    assert_eq!(span(both, &[0, 0, 0]), Some((0, Some(1), "broken")));
    // open ones
    let waits = span(flush, &[0, 1, 0]).unwrap();
    assert_eq!((waits.0, waits.1), (1, None));
    let to_come = span("nexttime strong(a)", &[0]).unwrap();
    assert_eq!((to_come.0, to_come.1), (1, None));
}

#[test]
fn where_the_plain_engine_judged_alone_there_is_no_mark() {
    let mut engines = Engines::of(Engine::Plain, FLUSH).unwrap();
    let scene = Scene::of(&mut engines, FLUSH, &Names::none(), &[1, 2]).unwrap();
    assert_eq!(scene.span, None);
    let drawn = drawn(&scene);
    for class in [
        "decisive-row",
        "bracket",
        "open-bracket",
        "bracket-key",
        "span",
    ] {
        assert_eq!(of_class(&drawn, class).len(), 0, "{class}");
    }
    assert!(!texts(&drawn, "name").contains(&"decisive".to_string()));
    let about = |words: &String| words.starts_with("decisive");
    assert!(!texts(&drawn, "legend").iter().any(about));
}

#[test]
fn a_closed_mark_has_both_ends() {
    // acknowledged at sample 1, and the supply drops at sample 2
    let drawn = drawn(&marked(&[0, 1, 2], 1, Some(2)));
    let names = ["sample", "ack", "drop", "strobe", "p", "decisive", "level"];
    assert_eq!(texts(&drawn, "name"), names);
    // below the flag's row the signals begin at 150, and the row of the mark at 150 + 3 * 28 + 24 = 258;
    // sample 1 begins at 212 and sample 2 ends at 372
    assert_eq!(
        values(&drawn, "bracket", "d"),
        ["M216 266V276M216 271H368M368 266V276"]
    );
    assert_eq!(of_class(&drawn, "open-bracket").len(), 0);
    // below the bracket the line of the flag, at 292, is in the way of 23 cells of 6.6
    assert_eq!(texts(&drawn, "span"), ["asked at 1, broken at 2"]);
    assert_eq!(
        [values(&drawn, "span", "x"), values(&drawn, "span", "y")].concat(),
        ["298", "288"]
    );
    // the levels begin 12 below the row, which is 36 high
    let bars = values(&drawn, "bar-2", "y");
    assert_eq!(bars[0], (258 + 36 + 12 + 14).to_string());
    let legend = texts(&drawn, "legend");
    assert_eq!(legend.last().unwrap(), "decisive part, asked to closed");
}

#[test]
fn an_open_mark_has_no_right_end() {
    let drawn = drawn(&marked(&[0, 1, 0], 1, None));
    // without a flag the row begins at 236; the tail reaches from 132 + 240 = 372 to 704
    assert_eq!(values(&drawn, "bracket", "d"), ["M216 244V254M216 249H372"]);
    assert_eq!(values(&drawn, "open-bracket", "d"), ["M372 249H704"]);
    assert_eq!(values(&drawn, "open-bracket", "stroke-dasharray"), ["5 4"]);
    assert_eq!(texts(&drawn, "span"), ["asked at 1, still open"]);
    assert_eq!(values(&drawn, "span", "x"), ["216"]);
    let legend = texts(&drawn, "legend");
    assert_eq!(legend.last().unwrap(), "decisive part, still open");
}

#[test]
fn what_is_still_to_come_is_marked_in_the_tail() {
    let later = drawn(&marked(&[0, 1, 0], 3, None));
    assert_eq!(values(&later, "bracket", "d"), ["M376 244V254M376 249H376"]);
    assert_eq!(values(&later, "open-bracket", "d"), ["M376 249H704"]);
    assert_eq!(
        texts(&later, "span"),
        ["asked at 3, which is still to come"]
    );
    // without samples, and with the line that nothing was tested, the row begins at 258; the tail begins 96
    // right of where sample 0 would be
    let none = drawn(&marked(&[], 0, None));
    assert_eq!(values(&none, "bracket", "d"), ["M232 266V276M232 271H232"]);
    assert_eq!(texts(&none, "span"), ["asked at 0, which is still to come"]);
}

#[test]
fn the_words_stand_where_there_is_room() {
    let words = |scene: &Scene| {
        let drawn = drawn(scene);
        let [span] = &of_class(&drawn, "span")[..] else {
            panic!("one text");
        };
        let place = ["x", "text-anchor"].map(|name| span.get(name).to_string());
        (span.text.clone(), place)
    };
    let said = |words: &str, x: &str, anchor: &str| {
        (words.to_string(), [x.to_string(), anchor.to_string()])
    };
    let mut samples = [0; 63];
    samples[62] = 3;
    // columns of 16 from 132 on: sample 62 begins at 1124. A mark from 5 on has its words below its left end.
    let long = words(&marked(&samples, 5, Some(62)));
    assert_eq!(long, said("asked at 5, broken at 62", "216", "start"));
    // the picture ends at 1252, 128 right of the line of the flag: the words end left of it
    let last = words(&marked(&samples, 62, Some(62)));
    assert_eq!(last, said("asked at 62, broken at 62", "1118", "end"));
    // an open one near the end of the picture ends there
    let open = words(&marked(&[0; 63], 62, None));
    assert_eq!(open, said("asked at 62, still open", "1252", "end"));
    // with times where they have room: 39 cells of 6.6 from 298 on
    let times = |time: &str| Scene {
        times: vec![time.to_string(); 3],
        ..marked(&[0, 1, 2], 1, Some(2))
    };
    let timed = words(&times("15 ns"));
    assert_eq!(
        timed,
        said("asked at 1 (15 ns), broken at 2 (15 ns)", "298", "start")
    );
    // 83 cells take 548, and have none
    let long = words(&times("1234567890123456789012345 ns"));
    assert_eq!(long, said("asked at 1, broken at 2", "298", "start"));
}

/// The first words that the line of the flag crosses, but for those on the flag.
fn crossed(drawn: &[Element]) -> Option<&str> {
    let path = values(drawn, "pole", "d").concat();
    let pieces = path.split('M').skip(1).map(|piece| {
        let mut numbers = piece
            .split([' ', 'V'])
            .map(|number| number.parse().unwrap());
        [(); 3].map(|()| numbers.next().unwrap())
    });
    let pieces: Vec<[f64; 3]> = pieces.collect();
    let texts = drawn
        .iter()
        .filter(|it| it.tag == "text" && it.get("class") != "flag");
    let crosses = |text: &&Element| {
        let [left, right, top, bottom] = extent(text);
        let over =
            |[x, from, to]: &[f64; 3]| left < *x && *x < right && top < *to && *from < bottom;
        pieces.iter().any(over)
    };
    texts
        .into_iter()
        .find(crosses)
        .map(|text| text.text.as_str())
}

#[test]
fn the_words_fit_for_every_mark() {
    let name = "n".repeat(200);
    let lists: [&[&str]; 2] = [&["a"], &[&name]];
    for (count, list) in [1, 2, 3, 4, 9, 20, 63]
        .map(|count| lists.map(|list| (count, list)))
        .concat()
    {
        for closed in 0..count {
            let mut samples = vec![0; count];
            samples[closed] = 3;
            for (from, closed) in [(0, Some(closed)), (closed, Some(closed)), (closed, None)] {
                if closed.is_none() {
                    samples.fill(0);
                }
                let time = ["", "15 ns", "18446744073709551615 ticks"][from % 3];
                let scene = Scene {
                    span: marked(&[], from, closed).span,
                    times: vec![time.to_string(); count],
                    ..scene(FLUSH, list, &samples)
                };
                let drawn = drawn(&scene);
                assert_eq!(words_fit(&drawn), Ok(()), "{from} to {closed:?} of {count}");
                assert_eq!(crossed(&drawn), None, "{from} to {closed:?} of {count}");
                assert_eq!(of_class(&drawn, "span").len(), 1);
            }
        }
    }
}
