//! Pictures of made-up tables and records: always well-formed, always within their frame.
use super::elements::stands_alone;
use super::words::words_fit;
use super::*;
use crate::assertion::{Builder, Operator, Sort};
use crate::testing::Random;
use xistomar::Judge;

fn boolean(random: &mut Random, builder: &mut Builder) -> Option<usize> {
    let signal = |random: &mut Random| random.below(64);
    match random.below(6) {
        0 => builder.add(Operator::Constant, random.below(2), 0),
        1 => {
            let x = boolean(random, builder)?;
            builder.add(Operator::Not, x, 0)
        }
        2 => {
            let (x, y) = (boolean(random, builder)?, boolean(random, builder)?);
            let operator = random.pick(&[Operator::And, Operator::Or]);
            builder.add(operator, x, y)
        }
        3 => {
            let operator = random.pick(&[Operator::Rose, Operator::Fell]);
            builder.add(operator, signal(random), 0)
        }
        _ => builder.add(Operator::Signal, signal(random), 0),
    }
}

fn sequence(random: &mut Random, builder: &mut Builder) -> Option<usize> {
    let operator = match random.below(9) {
        0 | 1 => Operator::Then,
        2 => Operator::Fused,
        3 => Operator::Either,
        4 => Operator::Repeated,
        5 => Operator::ClockedSequence,
        _ => Operator::Letter,
    };
    over(operator, random, builder)
}

fn property(random: &mut Random, builder: &mut Builder) -> Option<usize> {
    let operator = match random.below(11) {
        0 => Operator::PropertyNot,
        1 => Operator::PropertyOr,
        2 => Operator::PropertyAnd,
        3 => Operator::Implies,
        4 => Operator::Nexttime,
        5 => Operator::Until,
        6 | 7 => Operator::ClockedProperty,
        8 => Operator::Weak,
        _ => Operator::Strong,
    };
    over(operator, random, builder)
}

fn over(operator: Operator, random: &mut Random, builder: &mut Builder) -> Option<usize> {
    let mut places = [0, 0];
    for (place, sort) in places.iter_mut().zip(operator.operands()) {
        *place = match sort {
            Sort::Boolean => boolean(random, builder)?,
            Sort::Sequence => sequence(random, builder)?,
            Sort::Property => property(random, builder)?,
        };
    }
    builder.add(operator, places[0], places[1])
}

/// A table that the judge takes.
fn accepted(random: &mut Random) -> Vec<u8> {
    loop {
        let mut builder = Builder::new();
        if property(random, &mut builder).is_some() {
            let table = builder.finish().table();
            if Judge::new().judge(&table, &[]).is_ok() {
                return table;
            }
        }
    }
}

/// Names of every length, with characters that XML gives a meaning or does not allow.
fn odd_names(random: &mut Random) -> Names {
    let mut names = Names::none();
    let letters: Vec<char> = "ab_.[]<>&\"' \u{1}\u{fffe}\t…写é".chars().collect();
    for number in 0..random.below(65) {
        let length = random.pick(&[1, 5, 28, 29, 200]);
        let letter = |_| random.pick(&letters);
        let name: String = (0..length).map(letter).collect();
        // a name that is taken is left out
        let _ = names.declare(&name, number as u8);
    }
    names
}

/// Words of every length, with the same characters, at most so many.
fn odd_words(random: &mut Random, most: usize) -> String {
    let pieces = [
        "a",
        "15 ns",
        "<&>",
        "-->",
        "\"'",
        "\u{1}\u{fffe}",
        "写入é",
        "",
        "\t",
        "0.5",
    ];
    let length = random.pick(&[1, 8, 70]);
    let word = |random: &mut Random| random.pick(&pieces).repeat(random.below(length + 1));
    let words: Vec<String> = (0..random.below(most + 1)).map(|_| word(random)).collect();
    words.join(" ")
}

#[test]
fn every_picture_is_well_formed_stands_alone_and_fits() {
    let mut random = Random(1);
    let (mut open, mut closed) = (0, 0);
    for round in 0..75 {
        let table = accepted(&mut random);
        let count = [0, 1, 5, 63, random.below(64)][round % 5];
        let samples: Vec<u64> = (0..count).map(|_| random.next()).collect();
        let mut scene = scene_of(&table, &odd_names(&mut random), &samples);
        scene.comment = Some(odd_words(&mut random, 300));
        scene.times = samples.iter().map(|_| odd_words(&mut random, 2)).collect();
        let mut entry = || (odd_words(&mut random, 2), odd_words(&mut random, 20));
        scene.origin = (0..round % 4).map(|_| entry()).collect();
        let drawn = elements(&draw(&scene)).unwrap();
        assert_eq!(stands_alone(&drawn), Ok(()));
        assert_eq!(words_fit(&drawn), Ok(()));
        assert_eq!(digits(&drawn), judged(&table, &samples));
        *if scene.verdict.closed().is_some() {
            &mut closed
        } else {
            &mut open
        } += 1;
    }
    // both kinds are there
    assert!(open > 10 && closed > 10, "{open} open, {closed} closed");
}

fn digits(drawn: &[Element]) -> Vec<u8> {
    let digits = texts(drawn, "level").into_iter();
    digits.map(|digit| digit.parse().unwrap()).collect()
}

/// The judge on each beginning of the record.
fn judged(table: &[u8], samples: &[u64]) -> Vec<u8> {
    let mut judge = Judge::new();
    let level = |count: usize| {
        judge
            .judge(table, &samples[..count])
            .unwrap()
            .level
            .number()
    };
    (0..=samples.len()).map(level).collect()
}

#[test]
fn the_same_scene_gives_the_same_bytes() {
    let scene = flush(&[0, 1, 0]);
    assert_eq!(draw(&scene), draw(&scene.clone()));
}
