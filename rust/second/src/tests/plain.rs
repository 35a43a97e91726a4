//! The plain judge: its refusals in their order, and tables whose rewriting has
//! more than 120 nodes, with values worked out by hand.

use super::table;
use crate::{judge, plain_judge, rewrite, Judgement, Verdict};

/// The level and the flag of a table that only the plain judge accepts.
fn past(table: &[u8], samples: &[u64]) -> (u8, bool) {
    let refused = Verdict::refused(13);
    assert_eq!(judge(table, samples, &mut vec![0; 7800]).verdict, refused);
    assert_eq!(rewrite(table, &mut [0; 486]).verdict, refused);
    let judged = plain_judge(table, samples);
    assert_eq!(judged.verdict, Verdict::ACCEPTED);
    (judged.level, judged.tested)
}

/// The verdict of a refusal, which has level 0 and is not tested.
fn refused(table: &[u8], samples: &[u64]) -> u8 {
    let Judgement {
        verdict,
        level,
        tested,
    } = plain_judge(table, samples);
    assert_eq!((level, tested), (0, false));
    verdict.number
}

#[test]
fn a_sequence_comes_before_a_long_record() {
    let sequence = table(&[(1, 0, 0), (16, 0, 0)]);
    let property = table(&[(1, 0, 0), (16, 0, 0), (32, 1, 0)]);
    let hollow = table(&[(1, 0, 0), (16, 0, 0), (20, 1, 0), (32, 2, 0)]);
    assert_eq!(refused(&sequence, &[]), 12);
    assert_eq!(refused(&sequence, &[0; 64]), 12);
    assert_eq!(refused(&property, &[0; 64]), 10);
    assert_eq!(refused(&hollow, &[0; 64]), 9);
    assert_eq!(refused(&property[..17], &[0; 64]), 5);
    assert_eq!(plain_judge(&property, &[1; 63]).level, 3);
}

/// @(a) over so many nexttimes of strong(b): b is asked at the tick after them.
#[test]
fn nexttimes_go_on_past_120() {
    let mut nodes = vec![(1, 0, 0), (1, 1, 0), (16, 1, 0), (32, 2, 0)];
    nodes.extend((3..63).map(|below| (38, below, 0)));
    nodes.push((40, 0, 63));
    let table = table(&nodes);
    let mut samples = vec![1; 61];
    samples.insert(7, 2);
    assert_eq!(past(&table, &samples), (0, true));
    samples[61] = 3;
    assert_eq!(past(&table, &samples), (3, true));
    samples[61] = 2;
    assert_eq!(past(&table, &samples), (2, false));
}

/// @(a)((b |-> strong(b)) and .. ), 14 of them: each has two letters of 9 nodes.
#[test]
fn letters_go_on_past_120() {
    let mut nodes = vec![(1, 0, 0), (1, 1, 0)];
    let mut all = None;
    for _ in 0..14 {
        let next = nodes.len() as u8;
        nodes.extend([
            (16, 1, 0),
            (16, 1, 0),
            (32, next + 1, 0),
            (37, next, next + 2),
        ]);
        if let Some(before) = all {
            nodes.push((36, before, next + 3));
        }
        all = Some(nodes.len() as u8 - 1);
    }
    nodes.push((40, 0, nodes.len() as u8 - 1));
    let table = table(&nodes);
    assert_eq!(past(&table, &[]), (2, false));
    // b before the first tick is not asked
    assert_eq!(past(&table, &[2, 1]), (3, false));
    assert_eq!(past(&table, &[0, 3]), (3, true));
}
