//! The block of each derived operator, written out by hand to the byte. A node
//! is written 17(2,3), operator, x and y, with its fourth byte after y.

use super::table_3;
use crate::{expand, Verdict};

/// The four bytes of each node of a text.
fn nodes_of(text: &str) -> Vec<[u8; 4]> {
    let node = |word: &str| {
        let numbers = word.split(['(', ',', ')']).filter(|part| !part.is_empty());
        let mut bytes = [0; 4];
        for (byte, number) in bytes.iter_mut().zip(numbers) {
            *byte = number.parse().expect("a byte");
        }
        bytes
    };
    text.split_whitespace().map(node).collect()
}

/// Asserts that a table of version 3 becomes these nodes.
fn becomes(given: &str, expected: &str) {
    nodes_become(&nodes_of(given), &nodes_of(expected));
}

/// The same for nodes as bytes; the bytes after them stay.
fn nodes_become(nodes: &[[u8; 4]], expected: &[[u8; 4]]) {
    let mut wanted = table_3(expected);
    wanted[3] = 2;
    let mut out = vec![9; wanted.len() + 3];
    let expansion = expand(&table_3(nodes), &mut out);
    assert_eq!(expansion.verdict, Verdict::ACCEPTED, "{nodes:?}");
    assert_eq!(expansion.count, expected.len(), "{nodes:?}");
    let (written, later) = out.split_at(wanted.len());
    assert_eq!(written, wanted, "{nodes:?}");
    assert_eq!(later, [9; 3]);
}

#[test]
fn implications_and_followed_by() {
    // (a ##1 1) |-> strong(b)
    becomes(
        "1(0) 1(1) 16(0) 16(1) 32(3) 41(2,4)",
        "1(0) 1(1) 0(1) 16(0) 16(2) 17(3,4) 16(1) 32(6) 37(5,7)",
    );
    // not (a |-> not strong(b))
    becomes(
        "1(0) 1(1) 16(0) 16(1) 32(3) 42(2,4)",
        "1(0) 1(1) 16(0) 16(1) 32(3) 34(4) 37(2,5) 34(6)",
    );
    // not (a |=> not strong(b))
    becomes(
        "1(0) 1(1) 16(0) 16(1) 32(3) 43(2,4)",
        "1(0) 1(1) 0(1) 16(0) 16(2) 17(3,4) 16(1) 32(6) 34(7) 37(5,8) 34(9)",
    );
}

#[test]
fn properties_that_repeat_nothing() {
    // strong(a) until weak(0)
    becomes(
        "1(0) 16(0) 32(1) 44(2)",
        "1(0) 0(0) 16(0) 32(2) 16(1) 33(4) 39(3,5)",
    );
    // not (not strong(a) until weak(0))
    becomes(
        "1(0) 16(0) 32(1) 45(2)",
        "1(0) 0(0) 16(0) 32(2) 34(3) 16(1) 33(5) 39(4,6) 34(7)",
    );
    // not nexttime not strong(a)
    becomes(
        "1(0) 16(0) 32(1) 47(2)",
        "1(0) 16(0) 32(1) 34(2) 38(3) 34(4)",
    );
}

/// (strong(a) until strong(b)) and s_eventually strong(b): the right one twice.
#[test]
fn s_until() {
    becomes(
        "1(0) 1(1) 16(0) 32(2) 16(1) 32(4) 46(3,5)",
        "1(0) 1(1) 0(0) 16(0) 32(3) 16(1) 32(5) 39(4,6) \
         16(1) 32(8) 34(9) 16(2) 33(11) 39(10,12) 34(13) 36(7,14)",
    );
}

#[test]
fn repeats() {
    // a[*0]
    becomes("1(0) 16(0) 23(1,0,0)", "1(0) 16(0) 20(1)");
    // a[*0] ##1 a
    becomes("1(0) 16(0) 23(1,0,17)", "1(0) 16(0) 20(1) 16(0) 17(2,3)");
    // (a[*0] or a[*1]) or a[*2]
    becomes(
        "1(0) 16(0) 23(1,0,32)",
        "1(0) 16(0) 20(1) 16(0) 20(3) 16(0) 17(4,5) 19(2,6) \
         16(0) 20(8) 16(0) 17(9,10) 16(0) 17(11,12) 19(7,13)",
    );
}

#[test]
fn delays() {
    // a ##0 b: no constant is made
    becomes(
        "1(0) 1(1) 16(0) 16(1) 24(2,3,0)",
        "1(0) 1(1) 16(0) 16(1) 18(2,3)",
    );
    // (a ##1 1[*0]) ##1 b
    becomes(
        "1(0) 1(1) 16(0) 16(1) 24(2,3,17)",
        "1(0) 1(1) 0(1) 16(0) 16(2) 20(4) 17(3,5) 16(1) 17(6,7)",
    );
    // (a ##0 b) or ((a ##1 1[*0]) ##1 b)
    becomes(
        "1(0) 1(1) 16(0) 16(1) 24(2,3,16)",
        "1(0) 1(1) 0(1) 16(0) 16(1) 18(3,4) \
         16(0) 16(2) 20(7) 17(6,8) 16(1) 17(9,10) 19(5,11)",
    );
}

#[test]
fn repeats_that_wait() {
    // a, not a, and (!a[*0:$] ##1 a)[*0]
    let none = "1(0) 2(0) 16(1) 20(2) 16(1) 21(4) 19(3,5) 16(0) 17(6,7) 20(8)";
    // !a[*0:$] after that
    let waits = "16(1) 20(10) 16(1) 21(12) 19(11,13)";
    becomes("1(0) 25(0,0,0)", none);
    // the repeat goes round the whole group
    let once = format!("{none} {waits} 16(0) 17(14,15) 17(9,16)");
    becomes("1(0) 25(0,0,1)", &once);
    becomes("1(0) 26(0,0,0)", &format!("{none} {waits} 17(9,14)"));
}

/// Booleans come first in the order of the nodes, those that blocks make at the
/// place of their node, and none is written twice.
#[test]
fn booleans_come_first() {
    becomes(
        "1(0) 25(0,0,0) 2(0) 16(2) 24(1,3,17) 5(7) 23(4,0,0)",
        "1(0) 2(0) 2(0) 0(1) 5(7) \
         16(1) 20(5) 16(1) 21(7) 19(6,8) 16(0) 17(9,10) 20(11) \
         16(3) 20(13) 17(12,14) 16(2) 17(15,16) 20(17)",
    );
}

/// A table of version 3 with no derived node gets the expander's order; clock
/// nodes stay.
#[test]
fn base_nodes_get_the_order() {
    becomes(
        "1(0) 16(0) 1(1) 16(2) 33(3) 37(1,4) 0(1) 40(2,5)",
        "1(0) 1(1) 0(1) 16(0) 16(1) 33(4) 37(3,5) 40(1,6)",
    );
}

/// The nodes of the listing of docs/BLOCKS.md under a heading: on each line a
/// number and four bytes.
fn listing(page: &str, heading: &str) -> Vec<[u8; 4]> {
    let (_, listing) = page.split_once(heading).expect("the heading of a listing");
    let lines = listing.lines().take_while(|line| !line.is_empty());
    let node = |line: &str| {
        let words: Vec<&str> = line.split_whitespace().collect();
        [1, 2, 3, 4].map(|at| u8::from_str_radix(words[at], 16).expect("a byte in hex"))
    };
    lines.map(node).collect()
}

#[test]
fn the_example_of_the_page_is_right() {
    let file = concat!(env!("CARGO_MANIFEST_DIR"), "/../../docs/BLOCKS.md");
    let page = std::fs::read_to_string(file).expect("docs/BLOCKS.md");
    let given = listing(&page, "    53 56 54 03 00 07\n");
    let written = listing(&page, "    53 56 54 02 00 1d\n");
    assert_eq!((given.len(), written.len()), (7, 29));
    nodes_become(&given, &written);
}
