//! Tables of version 3: what expanding writes and leaves, its refusals in their order, and how the other calls read them.
mod files;

use files::{judged, level, record, refused};
use xistomar::{expand, expanded, plain_judge, Judge, Level, TABLE_BYTES};

/// A table of a version with these nodes, each with its fourth byte.
fn table(version: u16, nodes: &[[u8; 4]]) -> Vec<u8> {
    files::file(b"SVT", version, nodes)
}

const A: [u8; 4] = [1, 0, 0, 0];
const B: [u8; 4] = [1, 1, 0, 0];
const LETTER: [u8; 4] = [16, 0, 0, 0];

/// a[*m:n] by its fourth byte.
fn repeated(fourth: u8) -> Vec<u8> {
    table(3, &[A, LETTER, [23, 1, 0, fourth]])
}

/// a, strong(b), and an operator over the two.
fn a_and_strong_b(operator: u8) -> Vec<u8> {
    let letters = [A, B, LETTER, [16, 1, 0, 0], [32, 3, 0, 0]];
    table(3, &[&letters[..], &[[operator, 2, 4, 0]]].concat())
}

/// The level of a table of version 3, by both engines, and by its expansion.
fn level_of(version_3: &[u8], samples: &[u64]) -> Level {
    let given = level(version_3, samples);
    assert_eq!(level(&expanded(version_3).unwrap(), samples), given);
    given
}

#[test]
fn an_expansion_is_written_to_the_byte() {
    // a[*1:1] is a[*0] ##1 a
    let nodes = [A, LETTER, [20, 1, 0, 0], LETTER, [17, 2, 3, 0]];
    let wanted = table(2, &nodes);
    let mut out = [9; 28];
    assert_eq!(expand(&repeated(0x11), &mut out), Ok(5));
    assert_eq!(out[..26], wanted);
    assert_eq!(out[26..], [9, 9]);
    assert_eq!(expanded(&repeated(0x11)), Ok(wanted));
}

#[test]
fn a_refusal_writes_nothing() {
    for (table, bytes, refusal) in [
        (repeated(0x11), 25, (15, 0)),
        (repeated(0x11), 0, (15, 0)),
        (repeated(0x01), 500, (6, 2)),
        (repeated(0xa0), 500, (13, 0)),
        (repeated(0xa0), 0, (13, 0)),
        (repeated(0x11)[..5].to_vec(), 500, (1, 0)),
    ] {
        let mut out = vec![9; bytes];
        assert_eq!(refused(expand(&table, &mut out)), refusal);
        assert_eq!(out, vec![9; bytes]);
    }
}

#[test]
fn older_tables_are_copied() {
    // a's letter stands before the signal b: another order than the expander's
    let letters = [[1, 0, 0], [16, 0, 0], [1, 1, 0], [16, 2, 0]];
    let nodes = [&letters[..], &[[17, 1, 3], [32, 4, 0]]].concat();
    for version in [1, 2] {
        let old = files::table(version, &nodes);
        assert_eq!(expanded(&old), Ok(old));
    }
    let letters = [[1, 0, 0], [1, 1, 0], [16, 0, 0], [16, 1, 0]];
    let written = [&letters[..], &[[17, 2, 3], [32, 4, 0]]].concat();
    assert_eq!(
        expanded(&files::table(3, &nodes)),
        Ok(files::table(2, &written))
    );
    for version in [0, 4, 259, 768] {
        let unknown = files::table(version, &nodes);
        assert_eq!(refused(expanded(&unknown)), (3, 0));
    }
}

/// Every fourth byte of a[*m:n], and the count of those that fit: two nodes and two more for each time, and an or between two.
#[test]
fn every_m_and_n_of_a_repeat() {
    for fourth in 0..=255 {
        let (m, n) = (usize::from(fourth % 16), usize::from(fourth / 16));
        let answer = expanded(&repeated(fourth));
        if m > n {
            assert_eq!(refused(answer), (6, 2));
            continue;
        }
        let count = 1 + (m..=n).map(|k| 2 + 2 * k).sum::<usize>() + n - m;
        match answer {
            Ok(bytes) => assert_eq!(bytes.len(), 6 + 4 * count),
            Err(refusal) => assert_eq!((refusal.number(), count > 120), (13, true)),
        }
    }
}

#[test]
fn refusal_9_names_the_node_that_is_expanded() {
    let strong = |fourth| table(3, &[A, LETTER, [23, 1, 0, fourth], [32, 2, 0, 0]]);
    assert_eq!(refused(expanded(&strong(0x00))), (9, 3));
    assert!(expanded(&strong(0x10)).is_ok());
    // a[*0] ##1 1 matches a letter
    let over_nothing = |operator| {
        let left = [A, LETTER, [20, 1, 0, 0]];
        let right = [LETTER, [32, 3, 0, 0], [operator, 2, 4, 0]];
        table(3, &[left, right].concat())
    };
    assert!(expanded(&over_nothing(41)).is_ok());
    assert_eq!(refused(expanded(&over_nothing(42))), (9, 5));
}

#[test]
fn levels_of_expansions() {
    // a |=> strong(b), a #-# strong(b), a #=# strong(b)
    assert_eq!(level_of(&a_and_strong_b(41), &[1, 2]), Level::Strong);
    assert_eq!(level_of(&a_and_strong_b(41), &[1, 0]), Level::Broken);
    assert_eq!(level_of(&a_and_strong_b(42), &[1]), Level::Broken);
    assert_eq!(level_of(&a_and_strong_b(43), &[1]), Level::Weak);
    // strong(c[->2]): c at two samples, with others between them
    let c_twice = table(3, &[[1, 2, 0, 0], [25, 0, 0, 2], [32, 1, 0, 0]]);
    assert_eq!(level_of(&c_twice, &[5, 2, 7]), Level::Strong);
    // always strong(a), s_eventually strong(a)
    let over = |operator| table(3, &[A, LETTER, [32, 1, 0, 0], [operator, 2, 0, 0]]);
    assert_eq!(level_of(&over(44), &[1, 1]), Level::Neutral);
    assert_eq!(level_of(&over(45), &[0, 0]), Level::Weak);
    // under a clock c: |=> goes one tick on
    let clocked = |samples: &[u64]| {
        let mut nodes = vec![A, B, [1, 2, 0, 0], LETTER, [16, 1, 0, 0]];
        nodes.extend([[32, 4, 0, 0], [41, 3, 5, 0], [40, 2, 6, 0]]);
        judged(&expanded(&table(3, &nodes)).unwrap(), samples).to_string()
    };
    assert_eq!(clocked(&[5, 0, 6]), "level 3 tested yes");
    assert_eq!(clocked(&[5, 2, 4]), "level 0 tested yes");
}

/// Every call reads the expansion: 12 comes before 13, and 13 is given for the expansion, too.
#[test]
fn the_other_calls_read_the_expansion() {
    let (property, sequence) = (a_and_strong_b(41), repeated(0x11));
    let mut judge = Judge::new();
    assert_eq!(xistomar::check(&property), Ok(()));
    let expansion = expanded(&property).unwrap();
    for samples in [&[][..], &[1], &[1, 2], &[1, 0]] {
        assert_eq!(judged(&property, samples), judged(&expansion, samples));
    }
    let ends = judge.match_ends(&sequence, &[1, 1], 0).unwrap();
    assert_eq!(ends.mask, 2);
    let [mut one, mut other] = [[9; TABLE_BYTES]; 2];
    assert_eq!(xistomar::rewrite(&property, &mut one), Ok(9));
    assert_eq!(xistomar::rewrite(&expansion, &mut other), Ok(9));
    assert_eq!((one[3], one), (2, other));
    let line = xistomar::line(&[property, record(1, &[1, 2])].concat());
    assert_eq!(line, "level 3 tested yes");

    let large = repeated(0xa0);
    assert_eq!(xistomar::check(&large), Ok(()));
    assert_eq!(refused(judge.judge(&large, &[])), (12, 0));
    assert_eq!(refused(judge.match_ends(&large, &[], 0)), (13, 0));
    let large = table(3, &[A, LETTER, [23, 1, 0, 0xa0], [32, 2, 0, 0]]);
    assert_eq!(refused(judge.judge(&large, &[0; 64])), (13, 0));
    assert_eq!(refused(plain_judge(&large, &[0; 64])), (13, 0));
}
