//! For every accepted table T, the text of T is read as T in the kit's order, and that has the same
//! verdict on every record.
use super::*;
use second::Case;
use xistomar::Judge;

/// The accepted tables of a random case of the second opinion, which grows tables of every shape and
/// damages some of them: as it is, and with signals that rise and fall.
fn random_tables(seed: u64) -> Vec<Vec<u8>> {
    let table = random_table(seed);
    let both = table.into_iter().flat_map(|table| {
        let rising = rising(&table, seed);
        [table, rising]
    });
    both.filter(|table| xistomar::check(table).is_ok())
        .collect()
}

fn random_table(seed: u64) -> Option<Vec<u8>> {
    match second::random_case(seed) {
        Case::Check { table } | Case::Rewrite { table, .. } => Some(table),
        Case::Expand { table, .. } => Some(table),
        Case::Judge { table, .. } | Case::Plain { table, .. } => Some(table),
        Case::Ends { table, .. } => Some(table),
        Case::Read { .. } | Case::Program { .. } => None,
    }
}

/// Names for some of the signals.
fn some_names(random: &mut Random) -> Names {
    let mut names = Names::none();
    for word in ["ack", "top.drop", "größe", "s3", "b1", "_"] {
        if random.below(2) == 0 {
            // a number that is taken leaves the name out
            let _ = names.declare(word, random.below(8) as u8);
        }
    }
    names
}

/// Whether a text has a derived operator, by its signs and words alone.
fn has_derived(text: &str) -> bool {
    let line: Vec<&str> = text.split_whitespace().collect();
    let base = line.join(" ").replace("[*0]", "").replace("[*1:$]", "");
    let base = base.replace("##1 ", "").replace("##0 ", "");
    let signs = ["[*", "[->", "[=", "##", "|=>", "#-#", "#=#"];
    let words = ["always", "s_eventually", "s_until", "s_nexttime"];
    signs.iter().chain(&words).any(|sign| base.contains(sign))
}

#[test]
fn a_table_that_is_shown_and_read_is_the_same_in_the_kits_order() {
    let mut accepted = [0; 4];
    let tables = (0..4000).flat_map(|seed| random_tables(seed).into_iter().map(move |t| (seed, t)));
    for (seed, table) in tables {
        let random = &mut Random(seed);
        let given = Assertion::of_table(&table).unwrap();
        for names in [Names::none(), some_names(random)] {
            let text = write(&given, &names);
            let back =
                read(&text).unwrap_or_else(|mistake| panic!("seed {seed}: {mistake}\n{text}"));
            assert_eq!(
                back.assertion.table(),
                given.tidy().table(),
                "seed {seed}\n{text}"
            );
            assert!(
                back.assertion.nodes().len() <= given.nodes().len(),
                "seed {seed}"
            );
            // so what was read once is stable byte for byte
            assert_eq!(write(&back.assertion, &back.names), text, "seed {seed}");
            // the version is 3 where an operator is derived, else 2 where something rises or falls, else 1
            let changes = text.contains("rose(") || text.contains("fell(");
            let version = match () {
                () if has_derived(&text) => 3,
                () if changes => 2,
                () => 1,
            };
            assert_eq!(back.assertion.table()[3], version, "seed {seed}\n{text}");
            accepted[usize::from(version)] += 1;
        }
    }
    assert!(
        accepted.iter().skip(1).all(|count| *count > 1500),
        "{accepted:?}"
    );
}

/// A table with its clocks rewritten away; none where it is refused with 13.
fn rewritten(table: &[u8]) -> Option<Vec<u8>> {
    let mut out = vec![0; xistomar::TABLE_BYTES];
    let count = xistomar::rewrite(table, &mut out).ok()?;
    out.truncate(6 + 4 * count);
    Some(out)
}

/// Samples of the signals that an assertion asks about.
fn samples_for(assertion: &Assertion, random: &mut Random) -> Vec<u64> {
    let signals = assertion.signals();
    let spread = |sample: u64| {
        let bits = signals.iter().enumerate();
        bits.fold(0, |word, (bit, signal)| {
            word | (sample >> (bit % 8) & 1) << signal
        })
    };
    random.samples(12).into_iter().map(spread).collect()
}

/// Asserts that two tables have the same verdict, or the same match ends from every start.
fn same_answers(judge: &mut Judge, one: &[u8], other: &[u8], samples: &[u64], seed: u64) {
    match judge.judge(one, samples) {
        Ok(judged) => assert_eq!(
            judge.judge(other, samples),
            Ok(judged),
            "seed {seed}, {samples:?}"
        ),
        Err(refusal) => {
            assert_eq!(refusal.number(), 12, "seed {seed}");
            for start in 0..=samples.len() {
                let ends = judge.match_ends(one, samples, start).unwrap();
                assert_eq!(
                    judge.match_ends(other, samples, start),
                    Ok(ends),
                    "seed {seed}, {samples:?}"
                );
            }
        }
    }
}

#[test]
fn a_table_that_is_shown_and_read_has_the_same_verdict_on_every_record() {
    let (mut judge, mut compared) = (Judge::new(), 0);
    let seeds = 10_000..12_500;
    let tables = seeds.flat_map(|seed| random_tables(seed).into_iter().map(move |t| (seed, t)));
    for (seed, table) in tables {
        // a table that is refused with 13 may come back accepted, and then there is nothing to compare
        let Some(plain) = rewritten(&table) else {
            continue;
        };
        let given = Assertion::of_table(&table).unwrap();
        let back = read(&write(&given, &Names::none()))
            .unwrap()
            .assertion
            .table();
        let back_plain = rewritten(&back).expect("no more nodes than before");
        let random = &mut Random(seed);
        for _ in 0..4 {
            let samples = samples_for(&given, random);
            same_answers(&mut judge, &table, &back, &samples, seed);
            same_answers(&mut judge, &plain, &back_plain, &samples, seed);
            compared += 1;
        }
    }
    assert!(compared > 8_000, "{compared} compared");
}
