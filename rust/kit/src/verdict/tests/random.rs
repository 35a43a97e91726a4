//! What the decisive part promises, on random tables and records of the program `second`.
use super::super::decisive::{decisive, Decisive};
use super::super::Verdict;
use super::{expanded, suffixes, verdict};
use crate::assertion::{Assertion, Builder, Operator, Sort};
use crate::testing::{rising, Random};
use second::{random_case, Case};
use xistomar::{Judge, Level};

/// The cases with a property and a record that are accepted, from these seeds: each as it is, and with
/// signals that rise and fall.
pub fn accepted(
    seeds: std::ops::Range<u64>,
) -> impl Iterator<Item = (Assertion, Vec<u64>, Verdict)> {
    let judged = |(table, samples): (Vec<u8>, Vec<u64>)| {
        let verdict = verdict(&table, &samples).ok()?;
        let assertion = Assertion::of_table(&table).unwrap();
        Some((assertion, samples, verdict))
    };
    let cases = seeds.filter_map(|seed| match random_case(seed) {
        Case::Judge { table, samples, .. } => {
            let rising = rising(&table, seed);
            Some([(table, samples.clone()), (rising, samples)])
        }
        _ => None,
    });
    cases.flatten().filter_map(judged)
}

/// The level of the part, asked afresh on some samples, and turned round where it stands under `not`.
fn told(assertion: &Assertion, part: &Decisive, samples: &[u64]) -> u8 {
    let level = suffixes::level(assertion, samples, part.node, part.from);
    match part.turned {
        true => 3 - level,
        false => level,
    }
}

fn level(assertion: &Assertion, samples: &[u64]) -> u8 {
    let judged = Judge::new().judge(&assertion.table(), samples).unwrap();
    judged.level.number()
}

/// Whether the number of `not`s on the way down to a node is odd.
fn under_not(assertion: &Assertion, node: usize) -> bool {
    let (mut below, mut odd) = (node, false);
    for (above, node) in assertion.nodes().iter().enumerate().skip(node + 1) {
        if node.operands().any(|operand| operand == below) {
            odd ^= node.operator == Operator::PropertyNot;
            below = above;
        }
    }
    odd
}

#[test]
fn the_decisive_part_has_the_assertions_level() {
    let (mut seen, mut turned) = ([0; 4], 0);
    for (assertion, samples, verdict) in accepted(0..8_000) {
        let part = decisive(&expanded(&assertion), &samples, &verdict).unwrap();
        let sort = assertion.node(part.node).operator.sort();
        assert_eq!(sort, Sort::Property);
        assert!(part.from <= samples.len());
        assert_eq!(part.turned, under_not(&assertion, part.node));
        let whole = verdict.judgement.level.number();
        assert_eq!(
            told(&assertion, &part, &samples),
            whole,
            "{assertion:?} {samples:?}"
        );
        seen[usize::from(whole)] += 1;
        turned += usize::from(part.turned);
    }
    assert!(
        seen.iter().all(|count| *count > 200) && turned > 200,
        "{seen:?} {turned}"
    );
}

#[test]
fn no_property_is_closed_before_the_first_sample() {
    for (assertion, _, verdict) in accepted(0..8_000) {
        assert!(
            (1..=2).contains(&verdict.levels[0].number()),
            "{assertion:?}"
        );
    }
}

#[test]
fn the_decisive_part_of_a_closed_assertion_closed_with_it() {
    for (assertion, samples, verdict) in accepted(0..8_000) {
        let Some(sample) = verdict.closed() else {
            continue;
        };
        let count = sample + 1;
        let part = decisive(&expanded(&assertion), &samples, &verdict).unwrap();
        assert_eq!(part.closed, Some(sample));
        assert!(part.from < count);
        let whole = verdict.judgement.level.number();
        assert_eq!(told(&assertion, &part, &samples[..count]), whole);
        let before = told(&assertion, &part, &samples[..sample]);
        assert!(before == 1 || before == 2, "{assertion:?} {samples:?}");
    }
}

/// A record with samples after it, up to 63: at random, and all signals off or on at times.
fn later(samples: &[u64], seed: u64) -> Vec<u64> {
    let mut random = Random(seed);
    let mut longer = samples.to_vec();
    while longer.len() < 63 {
        let sample = random.next();
        longer.push(random.pick(&[0, u64::MAX, sample, sample]));
    }
    longer
}

#[test]
fn no_longer_record_has_an_open_assertion_above_its_decisive_part() {
    let (mut followed, mut broken) = (0, 0);
    for (assertion, samples, verdict) in accepted(20_000..26_000) {
        if verdict.closed().is_some() {
            continue;
        }
        let part = decisive(&expanded(&assertion), &samples, &verdict).unwrap();
        assert_eq!(part.closed, None);
        for seed in 0..4 {
            let longer = later(&samples, seed);
            for count in [1, 2, 3, 5, 9].map(|more| samples.len() + more) {
                let Some(longer) = longer.get(..count) else {
                    continue;
                };
                let (whole, told) = (level(&assertion, longer), told(&assertion, &part, longer));
                assert!(whole <= told, "{assertion:?} {part:?} {longer:?}");
                followed += 1;
                broken += usize::from(told == 0);
            }
        }
    }
    assert!(followed > 3_000 && broken > 300, "{followed} {broken}");
}

/// The assertion with one part put in the place of another: `@(1) strong(b)` of the constant b.
fn with_constant(assertion: &Assertion, part: usize, constant: usize) -> Option<Assertion> {
    let mut builder = Builder::new();
    copy(assertion, assertion.root(), (part, constant), &mut builder)?;
    Some(builder.finish())
}

fn copy(
    assertion: &Assertion,
    index: usize,
    put: (usize, usize),
    builder: &mut Builder,
) -> Option<usize> {
    if index == put.0 {
        let one = builder.add(Operator::Constant, 1, 0)?;
        let constant = builder.add(Operator::Constant, put.1, 0)?;
        let letter = builder.add(Operator::Letter, constant, 0)?;
        let strong = builder.add(Operator::Strong, letter, 0)?;
        return builder.add(Operator::ClockedProperty, one, strong);
    }
    let node = assertion.node(index);
    let operands: Vec<usize> = node.operands().collect();
    let mut copied = [usize::from(node.x), usize::from(node.y)];
    for (place, operand) in copied.iter_mut().zip(operands) {
        *place = copy(assertion, operand, put, builder)?;
    }
    builder.add_counted(node.operator, copied[0], copied[1], node.fourth)
}

/// What if the part had been broken at every sample? Inside the record it then has level 0, and the
/// assertion has, too. For an assertion at level 3: had it held at every sample, so had the assertion.
#[test]
fn had_the_decisive_part_been_otherwise_so_had_the_assertion() {
    let mut seen = 0;
    for (assertion, samples, verdict) in accepted(0..8_000) {
        let part = decisive(&expanded(&assertion), &samples, &verdict).unwrap();
        let strong = verdict.judgement.level == Level::Strong;
        let constant = usize::from(part.turned != strong);
        let Some(other) = with_constant(&assertion, part.node, constant) else {
            continue;
        };
        let judged = Judge::new().judge(&other.table(), &samples);
        if let (Ok(judged), true) = (judged, part.from < samples.len()) {
            let expected = if strong { Level::Strong } else { Level::Broken };
            assert_eq!(judged.level, expected, "{assertion:?} {part:?} {samples:?}");
            seen += 1;
        }
    }
    assert!(seen > 1_200, "{seen}");
}
