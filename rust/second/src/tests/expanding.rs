//! Expanding: its refusals in their order, its size, what the expansion means,
//! and what the other calls say of a table of version 3.

use super::{table, table_3, table_of};
use crate::case::lent_bytes;
use crate::record::record_bytes;
use crate::{check, expand, judge, level, line, match_ends, plain_judge, rewrite, Verdict};

const A: [u8; 4] = [1, 0, 0, 0];
const LETTER: [u8; 4] = [16, 0, 0, 0];

/// The verdict and the count of a table of version 3, with room for any.
fn expanded(nodes: &[[u8; 4]]) -> (u8, usize, usize) {
    let mut out = lent_bytes(486);
    let expansion = expand(&table_3(nodes), &mut out);
    if !expansion.verdict.accepted() {
        assert_eq!((expansion.count, &out), (0, &lent_bytes(486)));
    }
    let Verdict { number, node } = expansion.verdict;
    (number, node, expansion.count)
}

/// strong of a sequence that ends the nodes.
fn strong(nodes: &[[u8; 4]]) -> Vec<[u8; 4]> {
    let root = [32, nodes.len() as u8 - 1, 0, 0];
    [nodes, &[root]].concat()
}

/// Asserts the level of a table of version 3 on samples, by its expansion.
fn has_level(nodes: &[[u8; 4]], samples: &[u64], expected: u8) {
    let mut out = [0; 486];
    let count = expand(&table_3(nodes), &mut out).count;
    let judged = level(&out[..6 + 4 * count], samples);
    assert_eq!(judged.verdict, Verdict::ACCEPTED);
    assert_eq!(judged.level, expected, "{nodes:?} on {samples:?}");
}

#[test]
fn versions_of_the_expander() {
    let nodes = [(1, 0, 0), (16, 0, 0), (32, 1, 0)];
    for version in 1..=3 {
        let table = table_of(version, &nodes);
        let mut out = lent_bytes(20);
        assert_eq!(expand(&table, &mut out).count, 3);
        assert_eq!(out[3], version.min(2));
    }
    for version in [0u16, 4, 255, 256, 257, 258, 259, 512, 768, 65535] {
        let mut bytes = table(&nodes);
        bytes[3..5].copy_from_slice(&version.to_le_bytes());
        assert_eq!(expand(&bytes, &mut [0; 20]).verdict, Verdict::refused(3));
    }
}

/// Tables of version 1 and 2 keep every byte, whatever their order.
#[test]
fn older_tables_are_copied() {
    let nodes = [
        (1, 0, 0),
        (16, 0, 0),
        (1, 5, 0),
        (16, 2, 0),
        (32, 3, 0),
        (37, 1, 4),
    ];
    for version in 1..=2 {
        let table = table_of(version, &nodes);
        let mut out = lent_bytes(33);
        assert_eq!(expand(&table, &mut out).count, 6);
        assert_eq!(out[..30], table);
        assert_eq!(out[30..], lent_bytes(33)[30..]);
        assert_eq!(expand(&table, &mut [0; 29]).verdict, Verdict::refused(15));
    }
}

#[test]
fn derived_operators_are_version_3_s_alone() {
    for operator in (23..=26).chain(41..=47) {
        for version in 1..=2 {
            let mut bytes = table_of(version, &[(1, 0, 0), (operator, 0, 0)]);
            assert_eq!(expand(&bytes, &mut [0; 99]).verdict.number, 6);
            bytes[3] = 3;
            let number = expand(&bytes, &mut [0; 99]).verdict.number;
            assert_eq!(number, if matches!(operator, 25 | 26) { 0 } else { 6 });
        }
    }
    for operator in (7..=15).chain(27..=31).chain(48..=255) {
        assert_eq!(expanded(&[A, [operator, 0, 0, 0]]), (6, 1, 0));
    }
}

#[test]
fn fourth_bytes() {
    for byte in 0..=255u8 {
        let in_order = byte % 16 <= byte / 16;
        let accepted = |nodes: &[[u8; 4]]| matches!(expanded(nodes).0, 0 | 13);
        assert_eq!(accepted(&[A, LETTER, [23, 1, 0, byte]]), in_order);
        let delayed = [A, LETTER, LETTER, [24, 1, 2, byte]];
        assert_eq!(accepted(&delayed), in_order);
        assert_eq!(accepted(&[A, [25, 0, 0, byte]]), byte <= 15);
        assert_eq!(accepted(&[A, [26, 0, 0, byte]]), byte <= 15);
        for operator in [44, 45, 47] {
            let nodes = [A, LETTER, [32, 1, 0, 0], [operator, 2, 0, byte]];
            assert_eq!(accepted(&nodes), byte == 0);
        }
        for operator in 41..=43 {
            let nodes = [A, LETTER, LETTER, [32, 2, 0, 0], [operator, 1, 3, byte]];
            assert_eq!(accepted(&nodes), byte == 0);
        }
        assert_eq!(accepted(&[A, [16, 0, 0, byte]]), byte == 0);
    }
    // an unused y is 0 as before
    assert_eq!(expanded(&[A, LETTER, [23, 1, 1, 0x11]]), (6, 2, 0));
    assert_eq!(expanded(&[A, [25, 0, 1, 1]]), (6, 1, 0));
}

/// The largest counts within 120 nodes, under strong and as the root.
#[test]
fn largest_counts() {
    let letter = [A, LETTER];
    let two = [A, LETTER, LETTER];
    for (nodes, operator, fits, count) in [
        (&letter[..], [23, 1, 0, 0x80], 0x80, 100),
        (&letter[..1], [25, 0, 0, 13], 13, 115),
        (&letter[..1], [26, 0, 0, 12], 12, 113),
        (&two[..], [24, 1, 2, 0x91], 0x91, 105),
    ] {
        let with = |fourth| {
            let [code, x, y, _] = operator;
            [nodes, &[[code, x, y, fourth]]].concat()
        };
        assert_eq!(expanded(&strong(&with(fits))), (0, 0, count));
        assert_eq!(expanded(&with(fits)).2, count - 1);
        let more = fits + if fits > 15 { 16 } else { 1 };
        assert_eq!(expanded(&strong(&with(more))), (13, 0, 0));
    }
    // one node less, with no strong, is 120
    assert_eq!(expanded(&[A, LETTER, [23, 1, 0, 0x90]]), (0, 0, 120));
    assert_eq!(expanded(&[A, [26, 0, 0, 13]]), (0, 0, 120));
    assert_eq!(expanded(&[A, [25, 0, 0, 14]]), (13, 0, 0));
    assert_eq!(expanded(&[A, A, LETTER, [23, 2, 0, 0x90]]), (13, 0, 0));
}

/// Eleven nested [*15:15] pass ten million millions of nodes.
#[test]
fn any_nesting_is_counted() {
    for depth in 2..=118 {
        let mut nodes = vec![A, LETTER];
        nodes.extend((1..=depth).map(|below| [23, below, 0, 0xff]));
        assert_eq!(expanded(&nodes), (13, 0, 0));
        // 9 comes before 13 at any size, and names the node expanded
        nodes[2][3] = 0;
        nodes.truncate(119);
        let root = nodes.len();
        assert_eq!(expanded(&strong(&nodes)), (9, root, 0));
    }
}

#[test]
fn order_of_expanding() {
    let large = table_3(&[A, [25, 0, 0, 15]]);
    assert_eq!(expand(&large, &mut []).verdict, Verdict::refused(13));
    let small = table_3(&[A, [25, 0, 0, 0]]);
    assert_eq!(expand(&small, &mut [0; 45]).verdict, Verdict::refused(15));
    assert_eq!(expand(&small, &mut [0; 46]).verdict, Verdict::ACCEPTED);
    assert_eq!(expand(&small[..13], &mut []).verdict, Verdict::refused(5));
    // 7 and 8 are read on the table of version 3
    let twice = [A, LETTER, [24, 1, 1, 0x11]];
    assert_eq!(expanded(&twice), (7, 1, 0));
    assert_eq!(expanded(&[A, [25, 0, 0, 15], [25, 0, 0, 15]]), (7, 1, 0));
    assert_eq!(expanded(&[A, [2, 0, 0, 0]]), (8, 0, 0));
}

/// `a[*0] |=> P` is accepted, since `a[*0] ##1 1` matches a letter.
#[test]
fn hollow_expansions() {
    let strong_a = [A, LETTER, [32, 1, 0, 0]];
    let with = |more: &[[u8; 4]]| expanded(&[&strong_a[..], more].concat());
    let empty = [LETTER, [20, 3, 0, 0]];
    let nothing = [empty[0], empty[1], LETTER, [18, 4, 5, 0]];
    for (operator, over_empty) in [(37, 9), (41, 0), (42, 9), (43, 0)] {
        let over = |r: &[[u8; 4]]| {
            let root = 2 + r.len() as u8;
            with(&[r, &[[operator, root, 2, 0]]].concat())
        };
        assert_eq!(over(&empty).0, over_empty, "{operator}");
        assert_eq!((over(&nothing).0, over(&nothing).1), (9, 7), "{operator}");
    }
    assert_eq!(
        expanded(&[A, LETTER, [23, 1, 0, 0], [32, 2, 0, 0]]),
        (9, 3, 0)
    );
    assert_eq!(expanded(&[A, LETTER, [23, 1, 0, 16], [32, 2, 0, 0]]).0, 0);
    assert_eq!(expanded(&[A, [25, 0, 0, 0], [33, 1, 0, 0]]), (9, 2, 0));
    assert_eq!(expanded(&[A, [26, 0, 0, 0], [33, 1, 0, 0]]).0, 0);
}

#[test]
fn levels_of_repeats() {
    // strong(c[->2]): the repeat goes round the whole group
    let c_twice = strong(&[[1, 2, 0, 0], [25, 0, 0, 2]]);
    has_level(&c_twice, &[5, 2, 7], 3);
    has_level(&c_twice, &[5, 2], 1);
    // strong(a[*2:3] ##1 b)
    let nodes = [A, [1, 1, 0, 0], LETTER, [23, 2, 0, 0x32], [16, 1, 0, 0]];
    let then_b = strong(&[&nodes[..], &[[17, 3, 4, 0]]].concat());
    has_level(&then_b, &[1, 1, 2], 3);
    has_level(&then_b, &[1, 1, 1, 2], 3);
    has_level(&then_b, &[1, 2], 0);
    has_level(&then_b, &[1, 1, 1, 1, 2], 0);
    // strong(a ##[0:2] b)
    let nodes = [A, [1, 1, 0, 0], LETTER, [16, 1, 0, 0], [24, 2, 3, 0x20]];
    let delayed = strong(&nodes);
    has_level(&delayed, &[3], 3);
    has_level(&delayed, &[1, 0, 2], 3);
    has_level(&delayed, &[1, 0, 0, 2], 0);
    has_level(&delayed, &[1, 0], 1);
}

#[test]
fn levels_of_properties() {
    let over = |operator| [A, LETTER, [32, 1, 0, 0], [operator, 2, 0, 0]];
    has_level(&over(44), &[1, 1], 2);
    has_level(&over(44), &[1, 0], 0);
    has_level(&over(45), &[0, 1], 3);
    has_level(&over(45), &[0, 0], 1);
    has_level(&over(47), &[], 1);
    has_level(&over(47), &[0], 1);
    has_level(&over(47), &[0, 1], 3);
    has_level(&over(47), &[1, 0], 0);
    let b = [1, 1, 0, 0];
    let pair = |operator| {
        [
            A,
            b,
            LETTER,
            [16, 1, 0, 0],
            [32, 3, 0, 0],
            [operator, 2, 4, 0],
        ]
    };
    has_level(&pair(41), &[1], 2);
    has_level(&pair(41), &[1, 2], 3);
    has_level(&pair(41), &[1, 0], 0);
    has_level(&pair(41), &[0, 0], 3);
    has_level(&pair(42), &[3], 3);
    has_level(&pair(42), &[1], 0);
    has_level(&pair(43), &[1], 1);
    has_level(&pair(43), &[1, 2], 3);
    has_level(&pair(43), &[0, 2], 0);
    let until = [
        A,
        b,
        LETTER,
        [32, 2, 0, 0],
        [16, 1, 0, 0],
        [32, 4, 0, 0],
        [46, 3, 5, 0],
    ];
    has_level(&until, &[1, 2], 3);
    has_level(&until, &[1, 1], 1);
    has_level(&until, &[1, 0], 0);
}

/// The other calls read a table of version 3 as its expansion: 12 comes before
/// 13, which is given for the expansion or, where a call rewrites, for that.
#[test]
fn the_other_calls_read_the_expansion() {
    let words = &mut [0; 7800];
    let large = table_3(&[A, [25, 0, 0, 15]]);
    assert_eq!(check(&large), Verdict::ACCEPTED);
    assert_eq!(judge(&large, &[0; 64], words).verdict.number, 12);
    assert_eq!(plain_judge(&large, &[0; 64]).verdict.number, 12);
    assert_eq!(match_ends(&large, &[0; 64], 99, words).verdict.number, 13);
    assert_eq!(rewrite(&large, &mut []).verdict.number, 13);
    let large = table_3(&strong(&[A, [25, 0, 0, 15]]));
    assert_eq!(judge(&large, &[0; 64], words).verdict.number, 13);
    assert_eq!(plain_judge(&large, &[0; 64]).verdict.number, 13);
    // the expansion has 36 nodes, and its rewriting more than 120
    let clocked = [&strong(&[A, [25, 0, 0, 3]])[..], &[[40, 0, 2, 0]]].concat();
    let clocked = table_3(&clocked);
    assert_eq!(judge(&clocked, &[1; 3], words).verdict.number, 13);
    assert_eq!(plain_judge(&clocked, &[1; 64]).verdict.number, 10);
    assert_eq!(plain_judge(&clocked, &[1; 3]).level, 3);
    let input = [clocked, record_bytes(&[1; 3])].concat();
    assert_eq!(line(&input), "refused 13 at 0");
}

/// Rewriting expands first and writes version 2.
#[test]
fn rewriting_expands_first() {
    let nodes = [A, [1, 2, 0, 0], LETTER, [23, 2, 0, 0x10], [32, 3, 0, 0]];
    let table = table_3(&[&nodes[..], &[[40, 1, 4, 0]]].concat());
    let mut expansion = vec![0; 486];
    let count = expand(&table, &mut expansion).count;
    expansion.truncate(6 + 4 * count);
    let (mut direct, mut in_two) = (lent_bytes(300), lent_bytes(300));
    let rewriting = rewrite(&table, &mut direct);
    assert_eq!(rewriting, rewrite(&expansion, &mut in_two));
    assert_eq!((direct[3], &direct), (2, &in_two));
    // a, c; the letter of a three times, under c nine nodes each; and five more
    assert_eq!(rewriting.count, 2 + 3 * 9 + 5);
}
