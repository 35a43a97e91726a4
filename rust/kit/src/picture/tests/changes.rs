//! The rows of what rises and falls.
use super::*;

/// @(rose(c)) (rose(a) |-> strong(fell(b))), where a, b, c are signals 0, 1, 2
const NODES: [[u8; 3]; 8] = [
    [5, 0, 0],
    [6, 1, 0],
    [5, 2, 0],
    [16, 0, 0],
    [16, 1, 0],
    [32, 4, 0],
    [37, 3, 5],
    [40, 2, 6],
];

/// a rises at sample 0, before which all was 0, b falls at 1, and c rises at 2 and stays.
fn shown() -> Scene {
    scene(&table_2(&NODES), &["a", "b", "c"], &[3, 1, 6, 6])
}

#[test]
fn what_rises_and_falls_has_a_row_and_a_clock_its_ticks() {
    let Scene {
        clocks, changes, ..
    } = shown();
    let values: Vec<_> = clocks.iter().map(|clock| clock.values.clone()).collect();
    assert_eq!(values, [[false, false, true, false]]);
    let rows = changes.iter().map(|change| {
        let trace = &change.trace;
        (trace.name.as_str(), change.rises, &trace.values[..])
    });
    let wanted = [
        ("rose(a)", true, &[true, false, false, false][..]),
        ("fell(b)", false, &[false, true, false, false]),
    ];
    assert_eq!(rows.collect::<Vec<_>>(), wanted);
}

#[test]
fn an_arrow_points_where_the_signal_goes() {
    let drawn = drawn(&shown());
    let names = [
        "sample",
        "tick @(c)",
        "rose(a)",
        "fell(b)",
        "a",
        "b",
        "c",
        "p",
        "level",
    ];
    assert_eq!(texts(&drawn, "name"), names);
    // `tick @(c)` has 9 cells, so sample 0 begins at 139 and its middle is at 179. At the one tick a has
    // not risen: a line says that nothing was tested. So the clocks begin at 150 + 22, below the flag's
    // row, and the two rows at 196 and 220.
    assert_eq!(
        values(&drawn, "rise", "d"),
        ["M179 201L185 207H180V215H178V207H173Z"]
    );
    assert_eq!(
        values(&drawn, "fall", "d"),
        ["M259 239L265 233H260V225H258V233H253Z"]
    );
    // c is low until sample 2: the signals begin at 244, and c is the third of them
    assert_eq!(values(&drawn, "wave", "d")[2], "M139 324H299V306H459");
}

#[test]
fn without_a_rise_there_is_no_row() {
    let drawn = drawn(&flush(&[0, 1, 0]));
    for class in ["change", "rise", "fall"] {
        assert!(of_class(&drawn, class).is_empty());
    }
}
