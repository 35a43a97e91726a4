//! The plain judge alone: its refusals and their order, tables whose rewriting has more than 120 nodes, and the deepest tables on a small stack.
mod files;
mod tables;

use files::{level, record, refused};
use std::thread;
use tables::{clocked_letters, over_a, repeated_a, strong_a, table};
use xistomar::{plain_judge, Judge, Level};

/// The program's line for a table that is judged.
fn line(table: &[u8], samples: &[u64]) -> String {
    plain_judge(table, samples).unwrap().to_string()
}

/// strong(a) and so many operators over it, each with the node below as its x or, for a clock a, its y.
fn over_strong_a(operators: impl IntoIterator<Item = u8>) -> Vec<u8> {
    chain(vec![[1, 0, 0], [16, 0, 0], [32, 1, 0]], operators)
}

/// strong of so many operators over one letter a.
fn strong_over_a(operators: impl IntoIterator<Item = u8>) -> Vec<u8> {
    let below = vec![[1, 0, 0], [16, 0, 0]];
    chain(below, operators.into_iter().chain([32]))
}

/// Nodes, and more of them one above the other.
fn chain(mut nodes: Vec<[u8; 3]>, operators: impl IntoIterator<Item = u8>) -> Vec<u8> {
    for operator in operators {
        let below = nodes.len() as u8 - 1;
        nodes.push(match operator {
            22 | 40 => [operator, 0, below],
            _ => [operator, below, 0],
        });
    }
    table(&nodes)
}

#[test]
fn a_table_is_refused_as_by_check_whatever_the_record() {
    let strong_a = strong_a();
    let with = |place: usize, byte: u8| {
        let mut bytes = strong_a.clone();
        bytes[place] = byte;
        bytes
    };
    let tables = [
        (1, 0, strong_a[..5].to_vec()),
        (2, 0, with(2, b'W')),
        (3, 0, with(3, 4)),
        (4, 0, with(5, 121)),
        (5, 0, with(5, 2)),
        (6, 2, with(14, 99)),
        (
            7,
            1,
            table(&[[1, 0, 0], [16, 0, 0], [16, 0, 0], [32, 2, 0]]),
        ),
        (8, 0, table(&[[1, 0, 0], [1, 1, 0]])),
        (9, 3, over_a(&[[20, 1, 0], [32, 2, 0]])),
    ];
    for (number, node, table) in tables {
        assert_eq!(refused(xistomar::check(&table)), (number, node));
        for samples in [&[][..], &[1; 63], &[1; 64]] {
            assert_eq!(refused(plain_judge(&table, samples)), (number, node));
        }
    }
}

#[test]
fn a_sequence_root_is_refused_before_a_long_record() {
    assert_eq!(refused(plain_judge(&repeated_a(), &[])), (12, 0));
    assert_eq!(refused(plain_judge(&repeated_a(), &[0; 64])), (12, 0));
    assert_eq!(refused(plain_judge(&strong_a(), &[0; 64])), (10, 0));
    assert_eq!(line(&strong_a(), &[1; 63]), "level 3 tested yes");
}

/// The plain judge's line for a table that the judge refuses with 13.
fn past_13(table: &[u8], samples: &[u64]) -> String {
    let refusal = Judge::new().judge(table, samples).unwrap_err();
    assert_eq!((refusal.number(), refusal.node()), (13, 0));
    let mut out = [0; xistomar::TABLE_BYTES];
    assert_eq!(refused(xistomar::rewrite(table, &mut out)), (13, 0));
    line(table, samples)
}

#[test]
fn letters_past_120_rewritten_nodes_are_judged() {
    // 11 letters under a clock are 111 nodes and judged by both, 12 are 121
    assert_eq!(level(&clocked_letters(11), &[1; 11]), Level::Strong);
    let twelve = clocked_letters(12);
    assert_eq!(past_13(&twelve, &[]), "level 1 tested yes");
    assert_eq!(past_13(&twelve, &[1; 11]), "level 1 tested yes");
    assert_eq!(past_13(&twelve, &[1; 12]), "level 3 tested yes");
    // between the ticks nothing is asked
    let with_gaps: Vec<u64> = (0..24).map(|sample| sample % 2).collect();
    assert_eq!(past_13(&twelve, &with_gaps[..23]), "level 1 tested yes");
    assert_eq!(past_13(&twelve, &with_gaps), "level 3 tested yes");
    assert_eq!(refused(plain_judge(&twelve, &[1; 64])), (10, 0));
}

#[test]
fn nexttimes_past_120_rewritten_nodes_are_judged() {
    // @(c) over 20 nexttimes of strong(a): a is asked at the 21st tick
    let mut nodes = vec![[1, 0, 0], [1, 2, 0], [16, 0, 0], [32, 2, 0]];
    nodes.extend((3..23).map(|below| [38, below, 0]));
    nodes.push([40, 1, 23]);
    let table = table(&nodes);
    let ticks = |last: u64| {
        let mut samples = [4, 0].repeat(20);
        samples.push(last);
        samples
    };
    assert_eq!(past_13(&table, &ticks(5)), "level 3 tested yes");
    assert_eq!(past_13(&table, &ticks(4)), "level 0 tested yes");
    assert_eq!(past_13(&table, &ticks(1)), "level 2 tested no");
    assert_eq!(past_13(&table, &[]), "level 2 tested no");
}

#[test]
fn untils_past_120_rewritten_nodes_are_judged() {
    // @(c)(strong(a) until (strong(a) until .. strong(b))), 6 untils: letters and untils are 9 nodes each
    let mut nodes = vec![[1, 0, 0], [1, 1, 0], [1, 2, 0], [16, 1, 0], [32, 3, 0]];
    for _ in 0..6 {
        let below = nodes.len() as u8 - 1;
        nodes.extend([[16, 0, 0], [32, below + 1, 0], [39, below + 2, below]]);
    }
    let root = nodes.len() as u8 - 1;
    nodes.push([40, 2, root]);
    let table = table(&nodes);
    assert_eq!(past_13(&table, &[5, 5]), "level 2 tested yes");
    assert_eq!(past_13(&table, &[5, 0, 2, 6]), "level 3 tested yes");
    assert_eq!(past_13(&table, &[5, 0, 4]), "level 0 tested yes");
    // no tick yet
    assert_eq!(past_13(&table, &[0, 3]), "level 2 tested no");
}

#[test]
fn a_clock_that_rises_is_read_by_the_sample_before() {
    // @(rose a) over 9 nexttimes of strong(b), of version 2
    let mut nodes = vec![[5, 0, 0], [1, 1, 0], [16, 1, 0], [32, 2, 0]];
    nodes.extend((3..12).map(|below| [38, below, 0]));
    nodes.push([40, 0, 12]);
    let table = files::table(2, &nodes);
    let mut samples = [1, 1, 0].repeat(9);
    assert_eq!(past_13(&table, &samples), "level 2 tested no");
    samples.push(3);
    assert_eq!(past_13(&table, &samples), "level 3 tested yes");
    // a stays 1 at the sample where it would rise
    let last = samples.len() - 2;
    samples[last] = 1;
    assert_eq!(past_13(&table, &samples), "level 2 tested no");
}

#[test]
fn the_program_and_the_judge_still_refuse_with_13() {
    let input = [clocked_letters(12), record(1, &[1; 12])].concat();
    assert_eq!(xistomar::line(&input), "refused 13 at 0");
}

/// The stack that the deepest tables are judged on.
const STACK: usize = 512 * 1024;

/// The line for a table of 119 or 120 nodes on 63 samples with a in each, on a small stack.
fn deep(table: Vec<u8>) -> String {
    assert!(table[5] >= 119, "{} nodes", table[5]);
    let small = thread::Builder::new().stack_size(STACK);
    let judged = small.spawn(move || line(&table, &[1; 63])).unwrap();
    judged.join().unwrap()
}

/// So many of the same operator.
fn many(operator: u8) -> impl Iterator<Item = u8> {
    [operator].into_iter().cycle().take(117)
}

#[test]
fn the_deepest_sequences_fit_a_small_stack() {
    assert_eq!(deep(strong_over_a(many(21))), "level 3 tested yes");
    assert_eq!(deep(strong_over_a(many(22))), "level 3 tested yes");
    let mixed = [21, 22].into_iter().cycle().take(117);
    assert_eq!(deep(strong_over_a(mixed)), "level 3 tested yes");
    // a ##1 (a ##1 ..), a ##0 .. and a or ..: each has a letter of its own
    for operator in [17, 18, 19] {
        let mut nodes = vec![[1, 0, 0], [16, 0, 0]];
        for below in (1..).step_by(2).take(58) {
            nodes.extend([[16, 0, 0], [operator, below + 1, below]]);
        }
        nodes.push([32, 117, 0]);
        assert_eq!(deep(table(&nodes)), "level 3 tested yes");
    }
}

#[test]
fn the_deepest_properties_fit_a_small_stack() {
    // an odd number of nots over a property at level 3
    assert_eq!(deep(over_strong_a(many(34))), "level 0 tested yes");
    // more nexttimes than samples
    assert_eq!(deep(over_strong_a(many(38))), "level 2 tested no");
    assert_eq!(deep(over_strong_a(many(40))), "level 3 tested yes");
    let next_under_a_clock = many(38).take(116).chain([40]);
    assert_eq!(deep(over_strong_a(next_under_a_clock)), "level 2 tested no");
    // 30 nexttimes and 58 nots, most of them under a clock
    let mixed = [38, 34, 40, 34].into_iter().cycle().take(117);
    assert_eq!(deep(over_strong_a(mixed)), "level 3 tested yes");
}

#[test]
fn the_deepest_properties_of_two_operands_fit_a_small_stack() {
    // a |-> (a |-> .. strong(a))
    let mut nodes = vec![[1, 0, 0], [16, 0, 0], [32, 1, 0]];
    for below in (2..).step_by(2).take(58) {
        nodes.extend([[16, 0, 0], [37, below + 1, below]]);
    }
    assert_eq!(deep(table(&nodes)), "level 3 tested yes");
    // and, or and until with strong(a) on one side, and all that came before on the other
    for operator in [35, 36, 39] {
        for turned in [false, true] {
            let mut nodes = vec![[1, 0, 0], [16, 0, 0], [32, 1, 0]];
            for below in (2..).step_by(3).take(39) {
                let (x, y) = if turned {
                    (below + 2, below)
                } else {
                    (below, below + 2)
                };
                nodes.extend([[16, 0, 0], [32, below + 1, 0], [operator, x, y]]);
            }
            assert_eq!(deep(table(&nodes)), "level 3 tested yes");
        }
    }
}
