//! The bands of a picture: axis, ticks, waveforms, levels and the closing mark.
//!
//! The columns of the flush, worked out by hand: the longest row name has 6 cells of 7.2, so names end
//! at 16 + 44 = 60, the start begins at 70 and sample 0 at 118; 3 samples have columns of 80. The rows:
//! the heading ends at 54, the assertion takes 66 to 96, the axis begins at 108, the signals at 128.
use super::*;

#[test]
fn the_digits_are_the_levels_in_order() {
    // nothing asked, nothing asked, then acknowledged and waiting
    assert_eq!(
        texts(&drawn(&flush(&[0, 1, 0])), "level"),
        ["2", "2", "1", "1"]
    );
    // and broken by the drop at sample 3
    let broken = drawn(&flush(&[0, 1, 0, 2, 4]));
    assert_eq!(texts(&broken, "level"), ["2", "2", "1", "1", "0", "0"]);
    // a and b count only where c ticks, at samples 1 and 3
    let p10 = drawn(&scene(P10, &["a", "b", "c"], &[1, 5, 2, 6]));
    assert_eq!(texts(&p10, "level"), ["1", "1", "1", "1", "3"]);
    assert_eq!(texts(&drawn(&flush(&[])), "level"), ["2"]);
    let long = drawn(&flush(&[0; 63]));
    assert_eq!(texts(&long, "level"), vec!["2"; 64]);
}

#[test]
fn a_bar_is_as_high_as_its_level_and_stands_in_its_column() {
    let drawn = drawn(&flush(&[0, 1, 0]));
    let bars = drawn.iter().filter(|element| {
        element.around.last().is_some_and(|class| class == "levels") && element.tag == "rect"
    });
    let shape =
        |bar: &Element| ["class", "x", "width", "y", "height"].map(|a| bar.get(a).to_string());
    let bars: Vec<_> = bars.map(shape).collect();
    // signals end at 128 + 3 * 28 = 212 and the row of the |-> at 236; bars begin at 248 and stand on
    // 248 + 4 * 14 = 304
    let wanted = [
        ["bar-2", "70", "48", "262", "42"],
        ["bar-2", "118", "80", "262", "42"],
        ["bar-1", "198", "80", "276", "28"],
        ["bar-1", "278", "80", "276", "28"],
        ["open", "358", "346", "248", "56"],
    ];
    assert_eq!(bars, wanted);
}

#[test]
fn a_waveform_is_high_and_low_with_edges_at_the_columns() {
    let drawn = drawn(&flush(&[0, 1, 0]));
    let waves = values(&drawn, "wave", "d");
    let wanted = [
        "M118 152H198V134H278V152H358",
        "M118 180H358",
        "M118 208H358",
    ];
    assert_eq!(waves, wanted);
    assert_eq!(values(&drawn, "shade", "d"), ["M198 152V134H278V152Z"]);
    assert_eq!(
        texts(&drawn, "name"),
        ["sample", "ack", "drop", "strobe", "p", "level"]
    );
    assert_eq!(values(&drawn, "name", "x"), vec!["60"; 6]);
}

#[test]
fn a_waveform_ends_open() {
    let drawn = drawn(&flush(&[0, 1, 0]));
    let rails = [
        "M358 134H704M358 152H704",
        "M358 162H704M358 180H704",
        "M358 190H704M358 208H704",
    ];
    assert_eq!(values(&drawn, "open-wave", "d"), rails);
    assert_eq!(texts(&drawn, "unknown"), ["?", "?", "?"]);
    let tail = of_class(&drawn, "tail");
    assert_eq!(tail.len(), 1);
    assert_eq!((tail[0].get("x"), tail[0].get("width")), ("358", "346"));
    assert_ne!(tail[0].get("stroke-dasharray"), "");
    assert!(texts(&drawn, "axis").contains(&"not recorded".to_string()));
}

#[test]
fn every_clock_has_its_marks_and_lines() {
    // the row name `tick @(c)` has 9 cells: names end at 16 + 65 = 81, sample 0 begins at 139
    let p10 = drawn(&scene(P10, &["a", "b", "c"], &[1, 5, 2, 6]));
    assert_eq!(
        marks(&p10),
        [vec!["M254 157H264L259 166Z", "M414 157H424L419 166Z"]]
    );
    // the clocks begin at 150, below the flag's row, and the signals end at 174 + 3 * 28 = 258
    assert_eq!(
        values(&p10, "tick-lines", "d"),
        ["M259 166V258M419 166V258"]
    );
    // @(s2) (strong(s0) until @(s3) weak(s1)): s3 is high in samples 0 and 3, s2 in 0, 1 and 4
    let nodes = [
        [1, 0, 0],
        [1, 1, 0],
        [1, 2, 0],
        [1, 3, 0],
        [16, 0, 0],
        [32, 4, 0],
        [16, 1, 0],
        [33, 6, 0],
        [40, 3, 7],
        [39, 5, 8],
        [40, 2, 9],
    ];
    let two = drawn(&scene(&table(&nodes), &[], &[12, 4, 3, 8, 4]));
    let counts: Vec<usize> = marks(&two).iter().map(Vec::len).collect();
    assert_eq!(counts, [2, 3]);
    assert_eq!(marks(&drawn(&flush(&[0, 1, 0]))), [[""; 0]; 0]);
}

/// The marks of each clock's row. Those of the legend stand in none.
fn marks(drawn: &[Element]) -> Vec<Vec<&str>> {
    let mut rows = Vec::new();
    for element in drawn {
        match (element.get("class"), element.around.last()) {
            ("clock", _) => rows.push(Vec::new()),
            ("tick", Some(around)) if around == "clock" => {
                rows.last_mut().unwrap().push(element.get("d"));
            }
            _ => {}
        }
    }
    rows
}

#[test]
fn the_closing_mark_stands_where_the_level_closed() {
    for open in [&[][..], &[0], &[0, 1, 0], &[0; 63]] {
        let drawn = drawn(&flush(open));
        for class in ["closing", "closing-column", "pole", "flag", "stays"] {
            assert_eq!(of_class(&drawn, class).len(), 0, "{class}");
        }
        assert_eq!(texts(&drawn, "after"), ["open"]);
        assert_eq!(of_class(&drawn, "open").len(), 1);
    }
    // sample 3 of p10 begins at 139 + 3 * 80; the levels end at 270 + 56 + 20
    let p10 = drawn(&scene(P10, &["a", "b", "c"], &[1, 5, 2, 6]));
    assert_eq!(values(&p10, "pole", "d"), ["M379 108V346"]);
    assert_eq!(values(&p10, "closing-column", "x"), ["379"]);
    assert_eq!(texts(&p10, "flag"), ["closed at sample 3"]);
    assert_eq!(texts(&p10, "after"), ["stays 3"]);
    assert_eq!(of_class(&p10, "open").len(), 0);
    // 4 columns end at 139 + 320; a bar of level 3 is 56 high
    assert_eq!(
        values(&p10, "stays", "d"),
        ["M459 270H690L704 298L690 326H459Z"]
    );
}

#[test]
fn the_closing_mark_stands_at_both_ends() {
    // names end at 60 with `sample`, so sample 0 begins at 118
    let first = drawn(&scene(&strong_a(), &["a"], &[1, 0]));
    assert_eq!(texts(&first, "flag"), ["closed at sample 0"]);
    assert_eq!(values(&first, "closing-column", "x"), ["118"]);
    // the last of 63 columns of 16: 118 + 62 * 16
    let mut samples = [0; 63];
    samples[62] = 3;
    let last = drawn(&flush(&samples));
    assert_eq!(texts(&last, "flag"), ["closed at sample 62"]);
    assert_eq!(values(&last, "closing-column", "x"), ["1110"]);
    assert_eq!(texts(&last, "after"), ["stays 0"]);
}

#[test]
fn the_axis_has_every_sample_or_every_fifth() {
    let axis = |count: usize| texts(&drawn(&flush(&vec![0; count])), "axis");
    assert_eq!(axis(0), ["start", "no samples", "not recorded"]);
    assert_eq!(axis(1), ["start", "0", "not recorded"]);
    assert_eq!(axis(5), ["start", "0", "1", "2", "3", "4", "not recorded"]);
    // 720 / 36 = 20 pixels have room for two digits and a space, 720 / 37 = 19 become 18 and do not
    assert_eq!(axis(36).len(), 36 + 2);
    let fifths = [
        "start",
        "0",
        "5",
        "10",
        "15",
        "20",
        "25",
        "30",
        "35",
        "not recorded",
    ];
    assert_eq!(axis(37), fifths);
    assert_eq!(axis(63).len(), 13 + 2);
}

#[test]
fn many_rows_have_the_axis_once_more_above_the_levels() {
    let list: Vec<String> = (0..17).map(|number| format!("bus_{number}")).collect();
    let list: Vec<&str> = list.iter().map(String::as_str).collect();
    let axes = |count: usize| {
        let drawn = drawn(&scene(&strong_a(), &list[..count], &[0, 0]));
        drawn
            .iter()
            .filter(|element| element.tag == "g" && element.get("class") == "axis")
            .count()
    };
    assert_eq!((axes(16), axes(17)), (1, 2));
}

#[test]
fn the_declared_signals_are_shown_and_those_that_are_asked_about() {
    // strong(s3 ##1 s1) with names for signals 0 and 1
    let nodes = [
        [1, 3, 0],
        [1, 1, 0],
        [16, 0, 0],
        [16, 1, 0],
        [17, 2, 3],
        [32, 4, 0],
    ];
    let shown = scene(&table(&nodes), &["spare", "go"], &[8, 3]);
    let names: Vec<&str> = shown
        .signals
        .iter()
        .map(|signal| signal.name.as_str())
        .collect();
    assert_eq!(names, ["spare", "go", "s3"]);
    let values: Vec<&[bool]> = shown
        .signals
        .iter()
        .map(|signal| &signal.values[..])
        .collect();
    assert_eq!(values, [[false, true], [false, true], [true, false]]);
}
