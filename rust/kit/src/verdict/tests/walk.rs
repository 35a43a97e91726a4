//! Each rule of the walk, by hand. a and b are signals 0 and 1: sample 1 is a alone, 2 b alone, 3 both.
use super::{check, found};

/// strong(a ##1 b) at node 5, strong(b) at node 7, and an operator over both at node 8
fn pair(operator: u8) -> [[u8; 3]; 9] {
    [
        [1, 0, 0],
        [1, 1, 0],
        [16, 0, 0],
        [16, 1, 0],
        [17, 2, 3],
        [32, 4, 0],
        [16, 1, 0],
        [32, 6, 0],
        [operator, 5, 7],
    ]
}

#[test]
fn and_is_as_low_as_its_first_lowest_side() {
    let and = pair(36);
    check(&and, &[1], &[1, 0], Some(0), (7, 0, 0));
    check(&and, &[3], &[1, 1], None, (5, 0, 1));
    check(&and, &[3, 1], &[1, 1, 0], Some(1), (5, 0, 0));
    // The first side breaks later than the second, which decided it.
    check(&and, &[1, 1], &[1, 0, 0], Some(0), (7, 0, 0));
}

#[test]
fn and_holds_by_the_side_that_closed_last_or_by_both() {
    // strong(b) closed at sample 0 already
    check(&pair(36), &[3, 2], &[1, 1, 3], Some(1), (5, 0, 3));
    // the same with the sides changed over
    let mut turned = pair(36);
    turned[8] = [36, 7, 5];
    check(&turned, &[3, 2], &[1, 1, 3], Some(1), (5, 0, 3));
    // strong(a) and strong(b), both at sample 0
    let both = [
        [1, 0, 0],
        [1, 1, 0],
        [16, 0, 0],
        [32, 2, 0],
        [16, 1, 0],
        [32, 4, 0],
        [36, 3, 5],
    ];
    check(&both, &[3], &[1, 3], Some(0), (6, 0, 3));
}

#[test]
fn or_is_as_high_as_its_first_highest_side() {
    let or = pair(35);
    check(&or, &[2], &[1, 3], Some(0), (7, 0, 3));
    check(&or, &[1, 2], &[1, 1, 3], Some(1), (5, 0, 3));
}

#[test]
fn or_waits_for_the_side_that_is_not_broken() {
    let or = pair(35);
    check(&or, &[1], &[1, 1], None, (5, 0, 1));
    // strong(b) broke at sample 0, the other side at sample 1
    check(&or, &[1, 1], &[1, 1, 0], Some(1), (5, 0, 0));
    // the same with the sides changed over
    let mut turned = pair(35);
    turned[8] = [35, 7, 5];
    check(&turned, &[1, 1], &[1, 1, 0], Some(1), (5, 0, 0));
    check(&turned, &[1], &[1, 1], None, (5, 0, 1));
    // both broke at sample 0
    check(&or, &[0], &[1, 0], Some(0), (8, 0, 0));
    // both wait, before any sample
    check(&or, &[], &[1], None, (8, 0, 1));
}

#[test]
fn until_goes_to_its_right_side_where_the_left_is_broken() {
    // strong(a) until strong(b ##1 b): at sample 0 there is no a, and the right side waits for a second b.
    let nodes = [
        [1, 0, 0],
        [1, 1, 0],
        [16, 0, 0],
        [32, 2, 0],
        [16, 1, 0],
        [16, 1, 0],
        [17, 4, 5],
        [32, 6, 0],
        [39, 3, 7],
    ];
    check(&nodes, &[2], &[2, 1], None, (7, 0, 1));
    check(&nodes, &[2, 0], &[2, 1, 0], Some(1), (7, 0, 0));
    check(&nodes, &[2, 2], &[2, 1, 3], Some(1), (7, 0, 3));
    // a at sample 0, then the same from sample 1 on
    check(&nodes, &[1, 2, 2], &[2, 2, 1, 3], Some(2), (7, 1, 3));
}

#[test]
fn until_goes_to_its_right_side_where_the_rest_is_broken() {
    // strong(a) until strong(b ##1 1 ##1 b): a and b at sample 0, neither at sample 1, so that the until from
    // there is broken, and only the right side from sample 0 is left.
    let nodes = [
        [1, 0, 0],
        [1, 1, 0],
        [0, 1, 0],
        [16, 0, 0],
        [32, 3, 0],
        [16, 1, 0],
        [16, 2, 0],
        [17, 5, 6],
        [16, 1, 0],
        [17, 7, 8],
        [32, 9, 0],
        [39, 4, 10],
    ];
    check(&nodes, &[3], &[2, 2], None, (11, 0, 2));
    check(&nodes, &[3, 0], &[2, 2, 1], None, (10, 0, 1));
    check(&nodes, &[3, 0, 0], &[2, 2, 1, 0], Some(2), (10, 0, 0));
    check(&nodes, &[3, 0, 2], &[2, 2, 1, 3], Some(2), (10, 0, 3));
}

#[test]
fn until_stops_where_both_sides_wait() {
    // strong(a ##1 a) until strong(b ##1 b), after a and b together
    let nodes = [
        [1, 0, 0],
        [1, 1, 0],
        [16, 0, 0],
        [16, 0, 0],
        [17, 2, 3],
        [32, 4, 0],
        [16, 1, 0],
        [16, 1, 0],
        [17, 6, 7],
        [32, 8, 0],
        [39, 5, 9],
    ];
    check(&nodes, &[3], &[2, 1], None, (10, 0, 1));
    // Sample 1 has b alone: the left side is broken, the right side matched.
    check(&nodes, &[3, 2], &[2, 1, 3], Some(1), (9, 0, 3));
    // Without a at sample 0 but with b, only the right side is left; without b only the left.
    check(&nodes, &[2], &[2, 1], None, (9, 0, 1));
    check(&nodes, &[1], &[2, 1], None, (5, 0, 1));
}

/// a[*1:$] |-> strong(b): nodes 3, 5, 6
const REPEATED: [[u8; 3]; 7] = [
    [1, 0, 0],
    [1, 1, 0],
    [16, 0, 0],
    [21, 2, 0],
    [16, 1, 0],
    [32, 4, 0],
    [37, 3, 5],
];

#[test]
fn an_implication_is_as_low_as_its_first_lowest_match() {
    // Every sample of the run of a is the end of a match; b is missing at samples 1 and 2.
    check(&REPEATED, &[3, 1, 1], &[2, 2, 0, 0], Some(1), (5, 1, 0));
    // While a runs on, a later match may be broken.
    check(&REPEATED, &[3, 3], &[2, 2, 2], None, (6, 0, 2));
}

#[test]
fn an_implication_holds_by_its_only_match_or_by_all() {
    // The run of a ends at sample 1, and b was there at sample 0: no match decided it, but their end.
    check(&REPEATED, &[3, 0], &[2, 2, 3], Some(1), (6, 0, 3));
    // a |-> strong(b) has one match at most.
    let once = [
        [1, 0, 0],
        [1, 1, 0],
        [16, 0, 0],
        [16, 1, 0],
        [32, 3, 0],
        [37, 2, 4],
    ];
    check(&once, &[3], &[2, 3], Some(0), (4, 0, 3));
    check(&once, &[0], &[2, 3], Some(0), (5, 0, 3));
}

#[test]
fn an_implication_stops_where_two_matches_count() {
    // a[*1:$] |-> strong(1[*1:$] ##0 b), and its not: a at samples 0 and 1, so that b is awaited twice.
    let nodes = [
        [1, 0, 0],
        [1, 1, 0],
        [0, 1, 0],
        [16, 0, 0],
        [21, 3, 0],
        [16, 2, 0],
        [21, 5, 0],
        [16, 1, 0],
        [18, 6, 7],
        [32, 8, 0],
        [37, 4, 9],
        [34, 10, 0],
    ];
    let straight = &nodes[..11];
    check(straight, &[1, 1, 0], &[2, 1, 1, 1], None, (9, 0, 1));
    check(straight, &[1, 1, 2], &[2, 1, 1, 3], Some(2), (10, 0, 3));
    check(&nodes, &[1, 1, 0], &[1, 2, 2, 2], None, (10, 0, 1));
    // While a runs on a third match may come, and with one match alone the walk goes on to it.
    check(&nodes, &[1], &[1, 2], None, (10, 0, 1));
    check(&nodes, &[1, 0], &[1, 2, 2], None, (9, 0, 1));
}

#[test]
fn not_turns_the_question_round() {
    // not (a |-> strong(b ##1 b)): after a and b the right side waits for a second b, which would break it.
    let nodes = [
        [1, 0, 0],
        [1, 1, 0],
        [16, 0, 0],
        [16, 1, 0],
        [16, 1, 0],
        [17, 3, 4],
        [32, 5, 0],
        [37, 2, 6],
        [34, 7, 0],
    ];
    check(&nodes, &[3], &[1, 2], None, (6, 0, 1));
    check(&nodes, &[3, 2], &[1, 2, 0], Some(1), (6, 0, 3));
    assert_eq!(found(&nodes, &[3, 2]).matched, Some((0, 1)));
    check(&nodes, &[3, 0], &[1, 2, 3], Some(1), (6, 0, 0));
    // Without a there is nothing to break, so that the not is.
    check(&nodes, &[0], &[1, 0], Some(0), (7, 0, 3));
}

#[test]
fn nexttime_goes_to_the_next_sample() {
    // nexttime strong(a)
    let nodes = [[1, 0, 0], [16, 0, 0], [32, 1, 0], [38, 2, 0]];
    check(&nodes, &[], &[2], None, (3, 0, 2));
    check(&nodes, &[0], &[2, 1], None, (2, 1, 1));
    check(&nodes, &[0, 1], &[2, 1, 3], Some(1), (2, 1, 3));
}
