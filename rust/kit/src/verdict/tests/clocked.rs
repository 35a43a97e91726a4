//! until and nexttime under a clock. a, b, c are signals 0, 1, 2; c is the clock, so a sample of 4 and
//! more is a tick.
use super::{check, found};

/// @(c) (strong(a) until strong(b)): nodes 4, 6, 7
const UNTIL: [[u8; 3]; 9] = [
    [1, 0, 0],
    [1, 1, 0],
    [1, 2, 0],
    [16, 0, 0],
    [32, 3, 0],
    [16, 1, 0],
    [32, 5, 0],
    [39, 4, 6],
    [40, 2, 7],
];

/// @(c) nexttime strong(b): nodes 3, 4
const NEXTTIME: [[u8; 3]; 6] = [
    [1, 1, 0],
    [1, 2, 0],
    [16, 0, 0],
    [32, 2, 0],
    [38, 3, 0],
    [40, 1, 4],
];

#[test]
fn until_asks_at_ticks() {
    // Ticks at samples 1 and 3: a at the first, neither a nor b at the second. Samples 0 and 2 lack a, too,
    // and are not asked.
    check(&UNTIL, &[0, 5, 0, 4], &[2, 2, 2, 2, 0], Some(3), (4, 3, 0));
    // b at the tick of sample 3; the b of sample 2 is no tick
    check(&UNTIL, &[1, 5, 2, 6], &[2, 2, 2, 2, 3], Some(3), (6, 3, 3));
    assert_eq!(found(&UNTIL, &[1, 5, 2, 6]).matched, Some((3, 3)));
}

#[test]
fn until_without_a_tick_is_open() {
    check(&UNTIL, &[0, 0, 2], &[2, 2, 2, 2], None, (7, 0, 2));
}

#[test]
fn nexttime_asks_at_the_second_tick() {
    // ticks at samples 0 and 2, with and without b at the second
    check(&NEXTTIME, &[4, 2, 6], &[2, 2, 2, 3], Some(2), (3, 2, 3));
    check(&NEXTTIME, &[4, 2, 4], &[2, 2, 2, 0], Some(2), (3, 2, 0));
    // the first tick need not be the first sample
    check(
        &NEXTTIME,
        &[0, 6, 0, 4],
        &[2, 2, 2, 2, 0],
        Some(3),
        (3, 3, 0),
    );
}

#[test]
fn nexttime_stops_before_its_second_tick() {
    check(&NEXTTIME, &[2, 4, 2], &[2, 2, 2, 2], None, (4, 0, 2));
    check(&NEXTTIME, &[], &[2], None, (4, 0, 2));
}

#[test]
fn an_inner_clock_takes_the_place_of_the_outer() {
    // @(c) (strong(a) until @(b) strong(a)): the inner strong sees the samples with b alone.
    let nodes = [
        [1, 0, 0],
        [1, 1, 0],
        [1, 2, 0],
        [16, 0, 0],
        [32, 3, 0],
        [16, 0, 0],
        [32, 5, 0],
        [40, 1, 6],
        [39, 4, 7],
        [40, 2, 8],
    ];
    // The tick of sample 0 has no a, so that the left side is broken there. The right side waits from there
    // for the first sample with b, which must have a.
    check(&nodes, &[4, 0, 3], &[2, 1, 1, 3], Some(2), (6, 0, 3));
    assert_eq!(found(&nodes, &[4, 0, 3]).matched, Some((0, 2)));
    check(&nodes, &[4, 1], &[2, 1, 1], None, (6, 0, 1));
    check(&nodes, &[4, 1, 2], &[2, 1, 1, 0], Some(2), (6, 0, 0));
}
