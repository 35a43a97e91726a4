//! The rows of the implications. The columns of the flush stand as in `bands.rs`: sample 0 begins at 118, and
//! 3 samples have columns of 80. The signals end at 128 + 3 * 28 = 212, so that the row's middle is at 224.
use super::*;

/// The middles of the marks of each row, asked and only reached. Those of the legend stand in none.
fn marks(drawn: &[Element]) -> Vec<[Vec<(f64, f64)>; 2]> {
    let mut rows = Vec::new();
    for element in drawn {
        let place = match (element.get("class"), element.around.last()) {
            ("implication", _) => {
                rows.push([vec![], vec![]]);
                continue;
            }
            ("asked", Some(around)) if around == "implication" => 0,
            ("reached", Some(around)) if around == "implication" => 1,
            _ => continue,
        };
        let middle = (element.number("cx"), element.number("cy"));
        rows.last_mut().unwrap()[place].push(middle);
    }
    rows
}

#[test]
fn a_row_marks_where_it_was_asked_and_where_it_was_only_reached() {
    // acknowledged at sample 1, which leaves the operand of always waiting: sample 2 is not reached
    let open = drawn(&flush(&[0, 1, 0]));
    assert_eq!(marks(&open), [[vec![(238.0, 224.0)], vec![(158.0, 224.0)]]]);
    // strobed at once: all are reached
    let held = drawn(&flush(&[0, 5, 0]));
    let reached = vec![(158.0, 224.0), (318.0, 224.0)];
    assert_eq!(marks(&held), [[vec![(238.0, 224.0)], reached]]);
}

/// always (a |=> strong(a)): nodes 1 and 3
#[test]
fn a_disc_stands_where_the_right_side_is_asked() {
    let nodes = [
        [1, 0, 0],
        [16, 0, 0],
        [16, 0, 0],
        [32, 2, 0],
        [41, 1, 3],
        [44, 4, 0],
    ];
    let row = |samples: &[u64]| {
        let drawn = drawn(&scene(&table_3(&nodes), &["a"], samples));
        let [marks] = &marks(&drawn)[..] else {
            panic!("one row");
        };
        marks
            .clone()
            .map(|marks| marks.iter().map(|(x, _)| *x).collect::<Vec<_>>())
    };
    // columns of 80 from 118 on: the match at sample 1 asks at sample 2, and that there at none yet
    assert_eq!(row(&[0, 1, 1]), [vec![318.0], vec![158.0, 238.0]]);
    // the match at sample 2 has no sample after it
    assert_eq!(row(&[0, 0, 1]), [vec![], vec![158.0, 238.0, 318.0]]);
}

#[test]
fn a_row_is_called_by_its_left_side() {
    let names = Names::of(&["ack", "drop", "strobe"]);
    let drawn = drawn(&scene_of(FLUSH, &names, &[0]));
    let rows = [
        "sample", "ack", "drop", "strobe", "ack |->", "decisive", "level",
    ];
    assert_eq!(texts(&drawn, "name"), rows);
}

/// (a |-> strong(a)) and nexttime (a |-> strong(a)): nodes 4 and 8
#[test]
fn the_end_of_the_record_is_marked_in_the_tail() {
    let nodes = [
        [1, 0, 0],
        [16, 0, 0],
        [16, 0, 0],
        [32, 2, 0],
        [37, 1, 3],
        [16, 0, 0],
        [16, 0, 0],
        [32, 6, 0],
        [37, 5, 7],
        [38, 8, 0],
        [36, 4, 9],
    ];
    let drawn = drawn(&scene(&table(&nodes), &["a"], &[1]));
    let [first, second] = &marks(&drawn)[..] else {
        panic!("two rows");
    };
    // the heading says that one was never asked, in a line of 22; so the signal takes 150 to 178, and the
    // rows 178 to 202 and to 226; the tail reaches from 118 + 80 to 704
    assert_eq!(*first, [vec![(158.0, 190.0)], vec![]]);
    assert_eq!(*second, [vec![], vec![(451.0, 214.0)]]);
}

#[test]
fn without_an_implication_there_is_no_row_and_no_legend_for_it() {
    let drawn = drawn(&scene(P10, &["a", "b", "c"], &[1, 5, 2, 6]));
    for class in ["implication", "asked", "reached"] {
        assert!(of_class(&drawn, class).is_empty());
    }
    assert!(texts(&drawn, "legend")
        .iter()
        .all(|words| !words.contains("asked") && !words.contains("reached")));
}
