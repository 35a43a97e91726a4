//! When a record tests an assertion, worked out by hand from docs/FORMAT.md (Tested).
//! a, b, c are signals 0, 1, 2, and a sample is 1, 2 and 4 of them.

use super::table;
use crate::record::record_bytes;
use crate::{judge, line, rewrite, Verdict};

/// The booleans of every table here: nodes 0 to 4.
const BOOLEANS: [(u8, u8, u8); 5] = [(1, 0, 0), (1, 1, 0), (1, 2, 0), (0, 0, 0), (0, 1, 0)];
const A: u8 = 0;
const B: u8 = 1;
const C: u8 = 2;
const ZERO: u8 = 3;
const ONE: u8 = 4;

/// A sequence or property as the nodes that come after the booleans. Its last
/// node stands for it.
type Part = Vec<(u8, u8, u8)>;

/// One letter that satisfies a boolean.
fn letter(b: u8) -> Part {
    vec![(16, b, 0)]
}

/// The number of the last node.
fn last(part: &Part) -> u8 {
    (BOOLEANS.len() + part.len() - 1) as u8
}

/// An operator over one part.
fn over(operator: u8, mut part: Part) -> Part {
    part.push((operator, last(&part), 0));
    part
}

/// An operator over two parts: the nodes of the second come after the first's.
fn over_both(operator: u8, mut first: Part, second: Part) -> Part {
    let x = last(&first);
    let more = first.len() as u8;
    let moved = |operand| match operand {
        0..=4 => operand,
        _ => operand + more,
    };
    first.extend(
        second
            .iter()
            .map(|&(operator, x, y)| (operator, moved(x), moved(y))),
    );
    let y = last(&first);
    first.push((operator, x, y));
    first
}

fn then(first: Part, second: Part) -> Part {
    over_both(17, first, second)
}

fn strong(b: u8) -> Part {
    over(32, letter(b))
}

fn weak(b: u8) -> Part {
    over(33, letter(b))
}

fn not(p: Part) -> Part {
    over(34, p)
}

/// `R |-> P`
fn implies(r: Part, p: Part) -> Part {
    over_both(37, r, p)
}

/// `b |-> strong(1)`: tested exactly by a word whose first letter satisfies b.
fn at_once(b: u8) -> Part {
    implies(letter(b), strong(ONE))
}

/// `0 |-> strong(1)`: holds, and no word of samples tests it.
fn holds() -> Part {
    at_once(ZERO)
}

/// Fails, and no word of samples tests it.
fn fails() -> Part {
    not(holds())
}

/// `a |-> not(b |-> strong(1))` by the first letter of a word: without a it
/// holds, with a and not b it fails, and only with a and b it is tested.
fn needs_b() -> Part {
    implies(letter(A), not(at_once(B)))
}

fn nexttime(p: Part) -> Part {
    over(38, p)
}

fn until(p: Part, q: Part) -> Part {
    over_both(39, p, q)
}

/// `@(c) P`
fn clocked(c: u8, mut p: Part) -> Part {
    p.push((40, c, last(&p)));
    p
}

/// The whole table.
fn whole(part: &Part) -> Vec<u8> {
    table(&[&BOOLEANS[..], part].concat())
}

/// The level of a property and whether it is tested, by the judge; the program
/// says the same.
fn judged(part: &Part, samples: &[u64]) -> (u8, bool) {
    let table = whole(part);
    let judged = judge(&table, samples, &mut [0; 7800]);
    assert_eq!(judged.verdict, Verdict::ACCEPTED);
    let said = match judged.tested {
        true => format!("level {} tested yes", judged.level),
        false => format!("level {} tested no", judged.level),
    };
    assert_eq!(line(&[table, record_bytes(samples)].concat()), said);
    (judged.level, judged.tested)
}

/// Asserts that samples test a property.
fn tested(part: &Part, samples: &[u64]) {
    assert!(judged(part, samples).1, "{part:?} on {samples:?}");
}

/// Asserts that samples do not test a property.
fn untested(part: &Part, samples: &[u64]) {
    assert!(!judged(part, samples).1, "{part:?} on {samples:?}");
}

#[test]
fn strong_and_weak_are_tested() {
    // Whatever the record, and whether or not they hold.
    for part in [strong(A), weak(A), strong(ZERO), clocked(C, strong(A))] {
        for samples in [&[][..], &[0], &[1], &[2, 1]] {
            tested(&part, samples);
        }
    }
    // strong(a) on no samples: only a ⊤ could match it.
    assert_eq!(judged(&strong(A), &[]), (1, true));
}

#[test]
fn not_follows_its_operand() {
    tested(&not(strong(A)), &[]);
    let not_at_once = not(at_once(A));
    tested(&not_at_once, &[1]);
    untested(&not_at_once, &[2]);
    untested(&not_at_once, &[]);
    tested(&not(not_at_once.clone()), &[1]);
    untested(&not(not_at_once), &[2]);
}

#[test]
fn and_and_or_need_either_operand() {
    for operator in [35, 36] {
        let both = over_both(operator, at_once(A), at_once(B));
        untested(&both, &[4]);
        tested(&both, &[1]);
        tested(&both, &[2]);
        tested(&both, &[3]);
        // strong alone is enough, on the empty record, too.
        tested(&over_both(operator, at_once(A), strong(B)), &[]);
        tested(&over_both(operator, weak(B), at_once(A)), &[]);
    }
}

#[test]
fn an_implication_needs_a_match_from_the_first_letter() {
    let implication = implies(letter(A), strong(B));
    tested(&implication, &[1]);
    untested(&implication, &[2]);
    untested(&implication, &[]);
    // a is there at sample 1, but no prefix of 2, 1 is one letter with a.
    assert_eq!(judged(&implication, &[2, 1]), (3, false));
    // (a ##1 b) |-> strong(c) on 1: the match would end beyond the record.
    let two = implies(then(letter(A), letter(B)), strong(C));
    untested(&two, &[1]);
    tested(&two, &[1, 2]);
    untested(&two, &[0, 1, 2]);
}

#[test]
fn an_implication_needs_its_right_side_tested_from_the_last_letter() {
    // a |-> (b |-> strong(1)): one letter with a and with b.
    let nested = implies(letter(A), at_once(B));
    untested(&nested, &[1]);
    tested(&nested, &[3]);
    // b comes a letter after the match of a.
    untested(&nested, &[1, 2]);
    // (a ##1 1) |-> (b |-> strong(1)): b is asked at sample 1, the last letter.
    let later = implies(then(letter(A), letter(ONE)), at_once(B));
    tested(&later, &[1, 2]);
    untested(&later, &[3, 0]);
    untested(&later, &[1, 0, 2]);
    // a |-> (b |-> (c |-> strong(1)))
    let thrice = implies(letter(A), implies(letter(B), at_once(C)));
    tested(&thrice, &[7]);
    untested(&thrice, &[3]);
    untested(&thrice, &[5]);
    // a[*1:$] |-> (b |-> strong(1)): of the prefixes of letters a, one is enough.
    let some = implies(over(21, letter(A)), at_once(B));
    tested(&some, &[3, 1]);
    tested(&some, &[1, 3]);
    untested(&some, &[1, 1, 2]);
    untested(&some, &[1, 0, 3]);
}

#[test]
fn an_empty_match_does_not_count() {
    // (a[*0] or b) |-> strong(1): the empty prefix always matches a[*0].
    let r = over_both(19, over(20, letter(A)), letter(B));
    let implication = implies(r, strong(ONE));
    untested(&implication, &[]);
    untested(&implication, &[1]);
    untested(&implication, &[1, 2]);
    tested(&implication, &[2]);
    // nexttime of it on 2: suffix 1 is empty, and its one prefix does not count.
    untested(&nexttime(implication), &[2]);
}

#[test]
fn nexttime_needs_a_letter_and_its_operand_tested_after_it() {
    // On one sample suffix 1 is the empty word, which tests weak(a).
    tested(&nexttime(weak(A)), &[1]);
    untested(&nexttime(weak(A)), &[]);
    // The inner nexttime is asked on the empty word.
    untested(&nexttime(nexttime(weak(A))), &[1]);
    tested(&nexttime(nexttime(weak(A))), &[1, 1]);
    // a at sample 1, and neither before nor after it.
    tested(&nexttime(at_once(A)), &[0, 1]);
    untested(&nexttime(at_once(A)), &[1, 0, 1]);
    untested(&nexttime(at_once(A)), &[1]);
}

#[test]
fn until_needs_a_position_that_tests_either_side() {
    // strong(0) is tested at position 0, where there is one, whatever P is.
    for p in [at_once(A), strong(A), nexttime(nexttime(weak(A)))] {
        let until = until(p, strong(ZERO));
        untested(&until, &[]);
        for samples in [&[0][..], &[1], &[0, 4], &[1, 1, 1]] {
            tested(&until, samples);
        }
    }
    // The left side alone, the right side alone, neither.
    let sides = until(at_once(A), not(at_once(B)));
    tested(&sides, &[1]);
    tested(&sides, &[2]);
    untested(&sides, &[4]);
    untested(&sides, &[]);
}

#[test]
fn until_stops_where_the_right_side_holds() {
    // Sample 0 has no c: neither side is tested there, but the right one holds.
    // So c at sample 1 is never asked for.
    let c_then_true = || implies(letter(C), weak(ONE));
    let both = until(c_then_true(), c_then_true());
    assert_eq!(judged(&both, &[0, 4]), (3, false));
    tested(&both, &[4]);
    // The right side holds with a and not b, as sample 1 is in the second record.
    let until = until(holds(), not(needs_b()));
    tested(&until, &[0, 0, 3]);
    untested(&until, &[0, 1, 3]);
    untested(&until, &[0, 0, 0]);
}

#[test]
fn until_stops_where_the_left_side_fails() {
    // Sample 0 has no c: not(c |-> weak(1)) is not tested, and fails.
    let not_c_then_true = || not(implies(letter(C), weak(ONE)));
    let both = until(not_c_then_true(), not_c_then_true());
    assert_eq!(judged(&both, &[0, 4]), (0, false));
    tested(&both, &[4]);
    // The left side fails with a and not b, as sample 1 is in the second record.
    let until = until(needs_b(), fails());
    tested(&until, &[0, 0, 3]);
    untested(&until, &[0, 1, 3]);
    untested(&until, &[0, 0, 0]);
}

#[test]
fn until_asks_what_holds_with_no_tail() {
    // (a ##1 1 ##1 1) |-> strong(1) at position 0 of 1, 4: a match needs one
    // letter more. It holds with no tail, and does not with a ⊥ tail.
    let r = then(then(letter(A), letter(ONE)), letter(ONE));
    let open = implies(r, strong(ONE));
    assert_eq!(judged(&open, &[1, 4]), (2, false));
    // On the left of until it holds, and c at sample 1 is reached.
    tested(&until(open.clone(), not(at_once(C))), &[1, 4]);
    // Its negation fails with no tail, and holds with a ⊤ tail: on the right of
    // until it does not keep c at sample 1 from being reached.
    assert_eq!(judged(&not(open.clone()), &[1, 4]), (1, false));
    tested(&until(at_once(C), not(open)), &[1, 4]);
}

#[test]
fn under_a_clock_an_implication_waits_for_a_tick() {
    let implication = clocked(C, implies(letter(A), strong(B)));
    // No tick, a at the first tick, a only at the second.
    untested(&implication, &[1, 1]);
    tested(&implication, &[1, 5]);
    untested(&implication, &[1, 4, 5]);
    // The last letter of the match is a tick: nexttime needs one tick more.
    let next = clocked(C, implies(letter(A), nexttime(strong(B))));
    untested(&next, &[5, 3]);
    tested(&next, &[5, 3, 4]);
    tested(&next, &[0, 5, 4]);
}

#[test]
fn under_a_clock_nexttime_needs_a_second_tick() {
    // @(a) nexttime weak(a) with no tick, with one, with two.
    let next = clocked(A, nexttime(weak(A)));
    untested(&next, &[]);
    untested(&next, &[4]);
    untested(&next, &[1]);
    untested(&next, &[0, 1, 0]);
    tested(&next, &[1, 1]);
    tested(&next, &[0, 1, 0, 1]);
    // @(c) nexttime (a |-> strong(1)): a at the second tick, not at another sample.
    let at_tick = clocked(C, nexttime(at_once(A)));
    tested(&at_tick, &[4, 0, 5]);
    untested(&at_tick, &[5, 1, 4]);
    untested(&at_tick, &[4, 4, 5]);
    // The inner nexttime counts the second tick as its own first.
    let twice = clocked(C, nexttime(nexttime(weak(A))));
    untested(&twice, &[4, 4]);
    tested(&twice, &[4, 4, 4]);
}

#[test]
fn under_a_clock_the_positions_of_until_are_the_ticks() {
    // @(c)(strong(c) until strong(c)): with no tick there is no position.
    let strongs = clocked(C, until(strong(C), strong(C)));
    untested(&strongs, &[]);
    untested(&strongs, &[0]);
    tested(&strongs, &[4]);
    tested(&strongs, &[0, 4]);
    // At the first of two ticks neither side is tested, the left one holds and
    // the right one fails; a or b at the second tests one of them.
    let sides = clocked(C, until(at_once(A), not(at_once(B))));
    untested(&sides, &[4]);
    tested(&sides, &[4, 5]);
    tested(&sides, &[4, 0, 6]);
    untested(&sides, &[4, 3]);
}

#[test]
fn under_a_clock_until_asks_nothing_between_ticks() {
    // Sides under @(1) look at the letter where they are asked, a tick or not.
    let under_c = |p, q| clocked(C, until(clocked(ONE, p), clocked(ONE, q)));
    // a or b at sample 0, which is no tick, tests nothing.
    let sides = under_c(at_once(A), not(at_once(B)));
    untested(&sides, &[1, 4]);
    untested(&sides, &[2, 4]);
    tested(&sides, &[0, 5]);
    tested(&sides, &[0, 6]);
    // Sample 0 has a and not b: the left side fails and the right one holds
    // there, which stops until only where it is a tick. Sample 1 has a and b.
    for stopped in [
        under_c(needs_b(), fails()),
        under_c(holds(), not(needs_b())),
    ] {
        tested(&stopped, &[1, 7]);
        untested(&stopped, &[5, 7]);
    }
}

#[test]
fn the_nearest_clock_counts() {
    // @(a) @(c) nexttime strong(b): two ticks of c, of a, of both.
    let inner = clocked(A, clocked(C, nexttime(strong(B))));
    tested(&inner, &[4, 4]);
    untested(&inner, &[1, 1]);
    tested(&inner, &[5, 5]);
    // nexttime @(c) nexttime strong(b): one sample on with no clock, and then
    // two ticks from there.
    let later = nexttime(clocked(C, nexttime(strong(B))));
    untested(&later, &[4, 4]);
    tested(&later, &[0, 4, 4]);
}

#[test]
fn it_is_read_on_the_clocked_table() {
    // Rewritten, both are an until with no clock. Its sides have strong nodes,
    // which are tested at position 0, though that is no tick.
    for part in [
        clocked(A, nexttime(weak(A))),
        clocked(C, until(strong(C), strong(C))),
    ] {
        let (level, is_tested) = judged(&part, &[0]);
        assert!(!is_tested, "{part:?}");
        let mut rewritten = vec![0; 486];
        let count = rewrite(&whole(&part), &mut rewritten).count;
        rewritten.truncate(6 + 4 * count);
        let plain = judge(&rewritten, &[0], &mut [0; 7800]);
        assert_eq!((plain.level, plain.tested), (level, true));
    }
}
