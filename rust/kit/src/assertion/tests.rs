use super::*;
use crate::testing::table;

/// `@(c) strong(a)`: booleans 0 and 1, a block of nine for the letter, and strong.
#[test]
fn a_node_stands_at_the_end_of_its_block() {
    let nodes = [[1, 0, 0], [1, 2, 0], [16, 0, 0], [32, 2, 0], [40, 1, 3]];
    let assertion = Assertion::of_table(&table(&nodes)).unwrap();
    assert_eq!(assertion.rewritten(), [0, 1, 10, 11, 11]);
}

/// nexttime strong(a) and (strong(a) until @(c) (nexttime strong(a) until strong(a))), the last boolean
/// after other nodes.
#[test]
fn blocks_are_longer_under_a_clock() {
    let nodes = [
        [1, 0, 0],
        [16, 0, 0],
        [32, 1, 0],
        [38, 2, 0],
        [16, 0, 0],
        [32, 4, 0],
        [16, 0, 0],
        [32, 6, 0],
        [38, 7, 0],
        [16, 0, 0],
        [32, 9, 0],
        [39, 8, 10],
        [1, 2, 0],
        [40, 12, 11],
        [39, 5, 13],
        [36, 3, 14],
    ];
    let table = table(&nodes);
    let assertion = Assertion::of_table(&table).unwrap();
    // 2 booleans; 1, 1, 1, 1, 1 node; then 9, 1, 14, 9, 1, 9 under the clock, which has none; then 1, 1
    let places = [0, 2, 3, 4, 5, 6, 15, 16, 30, 39, 40, 49, 1, 49, 50, 51];
    assert_eq!(assertion.rewritten(), places);
    let count = xistomar::rewrite(&table, &mut [0; xistomar::TABLE_BYTES]);
    assert_eq!(count.unwrap(), 52);
}

fn tidied(nodes: &[[u8; 3]]) -> Vec<u8> {
    Assertion::of_table(&table(nodes)).unwrap().tidy().table()
}

#[test]
fn tables_are_in_the_kits_order() {
    // strong(a)
    let strong_a = [
        0x53, 0x56, 0x54, 1, 0, 3, 1, 0, 0, 0, 0x10, 0, 0, 0, 0x20, 1, 0, 0,
    ];
    let strong = Assertion::of_table(&strong_a).unwrap();
    assert_eq!(strong.tidy().table(), strong_a);
    // @(c) strong(a)
    let clocked = [[1, 0, 0], [1, 2, 0], [16, 0, 0], [32, 2, 0], [40, 1, 3]];
    assert_eq!(tidied(&clocked), table(&clocked));
}

#[test]
fn tidying_shares_booleans_and_drops_the_unused() {
    // strong(a ##1 a) with two nodes for a, and an unused constant
    let given = [
        [1, 0, 0],
        [16, 0, 0],
        [0, 1, 0],
        [1, 0, 0],
        [16, 3, 0],
        [17, 1, 4],
        [32, 5, 0],
    ];
    let wanted = [[1, 0, 0], [16, 0, 0], [16, 0, 0], [17, 1, 2], [32, 3, 0]];
    assert_eq!(tidied(&given), table(&wanted));
    assert_eq!(tidied(&wanted), table(&wanted));
}

#[test]
fn a_part_stands_under_the_nearest_clock() {
    // @(c) (strong(a) until @(d) weak(b)), with a, b, c, d signals 0 to 3
    let nodes = [
        [1, 0, 0],
        [1, 1, 0],
        [1, 2, 0],
        [1, 3, 0],
        [16, 0, 0],
        [32, 4, 0],
        [16, 1, 0],
        [33, 6, 0],
        [40, 3, 7],
        [39, 5, 8],
        [40, 2, 9],
    ];
    let whole = Assertion::of_table(&table(&nodes)).unwrap();
    assert_eq!(whole.clocks(), [3, 2]);
    assert_eq!(
        [5, 7, 8, 9, 10].map(|k| whole.clock(k)),
        [Some(2), Some(3), Some(2), Some(2), None]
    );
    assert_eq!(whole.clock(4), Some(2));
    let strong = [[1, 0, 0], [1, 2, 0], [16, 0, 0], [32, 2, 0], [40, 1, 3]];
    assert_eq!(whole.part(5).table(), table(&strong));
    let letter = [[1, 1, 0], [1, 3, 0], [16, 0, 0], [22, 1, 2]];
    assert_eq!(whole.part(6).table(), table(&letter));
    assert_eq!(whole.part(10).table(), whole.tidy().table());
    assert_eq!(
        whole.letter(2).table(),
        table(&[[1, 2, 0], [16, 0, 0], [32, 1, 0]])
    );
    assert_eq!(whole.signals(), [0, 1, 2, 3]);
}

#[test]
fn a_clock_on_the_left_of_an_implication_is_not_the_right_sides() {
    // (@(c) a) |-> strong(b)
    let nodes = [
        [1, 0, 0],
        [1, 1, 0],
        [1, 2, 0],
        [16, 0, 0],
        [22, 2, 3],
        [16, 1, 0],
        [32, 5, 0],
        [37, 4, 6],
    ];
    let whole = Assertion::of_table(&table(&nodes)).unwrap();
    assert_eq!(
        [3, 4, 5, 6].map(|k| whole.clock(k)),
        [Some(2), None, None, None]
    );
}

#[test]
fn a_refused_table_is_no_assertion() {
    let refusal = Assertion::of_table(&table(&[[1, 0, 0]])).unwrap_err();
    assert_eq!(refusal.number(), 8);
}

#[test]
fn booleans_that_share_and_share_again_are_copied_once_each() {
    // x0 = signal 0, then x_k+1 = x_k & x_k: unfolded, the last would have 2 to the 100 letters
    let mut nodes = vec![[1, 0, 0]];
    nodes.extend((0..100).map(|below| [3, below, below]));
    nodes.extend([[16, 100, 0], [32, 101, 0]]);
    let whole = Assertion::of_table(&table(&nodes)).unwrap();
    assert_eq!(whole.tidy().table(), table(&nodes));
    assert_eq!(whole.letter(100).table(), table(&nodes));
    assert_eq!(whole.signals(), [0]);
}
