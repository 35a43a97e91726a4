//! The decisive part where signals rise and fall. Each record has a signal that is 1 both before and at
//! the sample from which a part is asked: on the samples from there on alone it would have risen, and
//! the part another level. a, b, c are signals 0, 1, 2.
use super::super::{satisfied, words};
use super::account;
use super::{check, found, table};
use crate::assertion::Assertion;
use crate::names::Names;
use crate::notation::read;
use crate::required::Required;

#[test]
fn a_rise_is_asked_of_the_record_and_not_of_what_is_left() {
    // a |-> nexttime strong(rose(b)): nodes 2, 4, 5, 6
    let nodes = [
        [1, 0, 0],
        [5, 1, 0],
        [16, 0, 0],
        [16, 1, 0],
        [32, 3, 0],
        [38, 4, 0],
        [37, 2, 5],
    ];
    // b is 1 at samples 0 and 1, so that at sample 1 it has not risen
    check(&nodes, &[3, 2], &[2, 1, 0], Some(1), (4, 1, 0));
    // and here it has
    check(&nodes, &[1, 2], &[2, 1, 3], Some(1), (4, 1, 3));
    assert_eq!(found(&nodes, &[1, 2]).matched, Some((1, 1)));
}

#[test]
fn a_fall_needs_the_sample_before() {
    // strong(!fell(a)) until strong(b): nodes 4, 6, 7
    let nodes = [
        [6, 0, 0],
        [2, 0, 0],
        [1, 1, 0],
        [16, 1, 0],
        [32, 3, 0],
        [16, 2, 0],
        [32, 5, 0],
        [39, 4, 6],
    ];
    // a falls at sample 1, and nothing else is broken
    check(&nodes, &[1, 0], &[2, 2, 0], Some(1), (4, 1, 0));
    check(&nodes, &[0, 0], &[2, 2, 2], None, (7, 0, 2));
}

#[test]
fn pairs_are_made_before_any_suffix() {
    // strong(rose(b) ##1 rose(b)): b cannot rise at two samples in a row
    let nodes = [[5, 1, 0], [16, 0, 0], [16, 0, 0], [17, 1, 2], [32, 3, 0]];
    check(&nodes, &[2, 2], &[1, 1, 0], Some(1), (4, 0, 0));
}

#[test]
fn under_a_clock_it_is_the_sample_before_and_not_the_tick_before() {
    // @(c) nexttime strong(rose(a)): nodes 3, 4
    let nodes = [
        [5, 0, 0],
        [1, 2, 0],
        [16, 0, 0],
        [32, 2, 0],
        [38, 3, 0],
        [40, 1, 4],
    ];
    // ticks at samples 0 and 2; a is 0 at the first and 1 at the second, and 1 at sample 1 already
    check(&nodes, &[4, 1, 5], &[2, 2, 2, 0], Some(2), (3, 2, 0));
    check(&nodes, &[4, 0, 5], &[2, 2, 2, 3], Some(2), (3, 2, 3));
}

#[test]
fn a_clock_that_rises_ticks_once() {
    // @(rose(c)) strong(a ##1 b): node 6
    let nodes = [
        [1, 0, 0],
        [1, 1, 0],
        [5, 2, 0],
        [16, 0, 0],
        [16, 1, 0],
        [17, 3, 4],
        [32, 5, 0],
        [40, 2, 6],
    ];
    // c rises at samples 0, with a, and 3, with b; at sample 1 it is 1 still
    let samples = [5, 5, 0, 6];
    check(&nodes, &samples, &[1, 1, 1, 1, 3], Some(3), (6, 0, 3));
    assert_eq!(found(&nodes, &samples).matched, Some((0, 3)));
    let assertion = Assertion::of_table(&table(&nodes)).unwrap();
    let ticks = satisfied(&assertion, 2, &samples).unwrap();
    assert_eq!(ticks, [true, false, false, true]);
}

#[test]
fn until_asks_where_its_clock_rises() {
    // @(rose(c)) (strong(a) until strong(b)): nodes 4, 6, 7
    let nodes = [
        [1, 0, 0],
        [1, 1, 0],
        [5, 2, 0],
        [16, 0, 0],
        [32, 3, 0],
        [16, 1, 0],
        [32, 5, 0],
        [39, 4, 6],
        [40, 2, 7],
    ];
    // c rises at samples 0, with a, and 3, with neither a nor b; at sample 1, where it is 1 still, nothing
    // is asked
    check(&nodes, &[5, 4, 0, 4], &[2, 2, 2, 2, 0], Some(3), (4, 3, 0));
}

#[test]
fn a_left_side_is_matched_in_the_whole_record() {
    // a |-> nexttime (rose(a) |-> strong(b)): nodes 7, 8, 9
    let nodes = [
        [1, 0, 0],
        [5, 0, 0],
        [1, 1, 0],
        [16, 0, 0],
        [16, 1, 0],
        [16, 2, 0],
        [32, 5, 0],
        [37, 4, 6],
        [38, 7, 0],
        [37, 3, 8],
    ];
    // a is 1 at both samples, so that at sample 1 nothing has risen and nothing is asked
    check(&nodes, &[1, 1], &[2, 2, 3], Some(1), (7, 1, 3));
    assert!(!found(&nodes, &[1, 1]).asked);
}

/// The nodes of examples/rise.txt:
/// (rose(ack) |-> strong((!fell(supply))[*1:$] ##0 rose(strobe))) until strong(0), with the strong at
/// node 10 and the until at 14. ack, strobe, supply are signals 0, 1, 2.
fn rise() -> Vec<[u8; 3]> {
    let text = include_str!("../../../../../examples/rise.txt");
    let assertion = read(text).unwrap().assertion;
    let nodes = assertion.nodes().iter();
    nodes
        .map(|node| [node.operator as u8, node.x, node.y])
        .collect()
}

#[test]
fn an_acknowledge_that_stays_counts_once() {
    // ack rises at samples 1 and 6, strobe at 3 and 7, and the supply falls at 8
    let samples = [4, 5, 5, 7, 7, 4, 5, 7, 0];
    let levels = [2, 2, 1, 1, 2, 2, 2, 1, 2, 2];
    check(&rise(), &samples, &levels, None, (14, 0, 2));
    // after sample 6 the strobe of the second is awaited
    let waiting = &levels[..8];
    check(&rise(), &samples[..7], waiting, None, (10, 6, 1));
}

#[test]
fn a_strobe_that_was_there_before_has_not_risen() {
    // strobe is 1 at samples 0, 1 and 2; ack rises at 1, and the supply falls at 3
    let samples = [6, 7, 7, 1];
    check(&rise(), &samples, &[2, 2, 1, 1, 0], Some(3), (10, 1, 0));
    check(&rise(), &samples[..3], &[2, 2, 1, 1], None, (10, 1, 1));
    let names = Names::of(&["ack", "strobe", "supply"]);
    let told = account(&table(&rise()), &names, &samples).unwrap();
    assert_eq!(told.signals.len(), 3);
    let said = words(&told, Required::default(), false);
    let part = "strong((!fell(supply))[*1:$] ##0 rose(strobe))";
    let decisive = format!(
        "\nDecisive: {part}, asked from sample 1: broken at sample 3, for it can no longer match.\n"
    );
    assert!(said.ends_with(&decisive), "{said}");
}
