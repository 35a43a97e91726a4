//! The report where the engines differ, which no record brings about.
use super::find::Place;
use super::{list, names, Answer, Found, Report, Run};
use crate::engine::Difference;
use crate::required::Required;
use crate::verdict::Judged;
use std::time::Duration;
use xistomar::{Judgement, Level};

fn judgement(level: Level) -> Judgement {
    Judgement {
        level,
        tested: true,
    }
}

/// Two records: one that held, and one on which the engines differ.
fn two() -> (Found, Vec<Answer>) {
    let place = |name: &str| Place {
        path: name.into(),
        wrong: None,
    };
    let found = Found {
        places: vec![place("a.svw"), place("b.svw")],
        others: 0,
        empty: Vec::new(),
    };
    let judged = Judged {
        judgement: judgement(Level::Neutral),
        asked: Some(true),
        named: true,
    };
    let difference = Difference {
        fast: Ok(judgement(Level::Strong)),
        plain: Ok(judgement(Level::Weak)),
        samples: 5,
    };
    (
        found,
        vec![Answer::Judged(judged), Answer::Differ(difference)],
    )
}

#[test]
fn a_difference_is_counted_listed_and_named() {
    let (found, answers) = two();
    let run = Run {
        answers,
        slowest: None,
    };
    let report = Report {
        found: &found,
        run: &run,
        required: Required::default(),
        whole: Duration::from_millis(1),
    };
    let table = report.table();
    let row = table
        .lines()
        .find(|line| line.starts_with("engines differ"));
    let words: Vec<&str> = row.unwrap_or_default().split_whitespace().collect();
    assert_eq!(
        words,
        ["engines", "differ", "1", "a", "defect", "of", "Xistomar"]
    );
    let line = "the two engines differ on the first 5 samples: the fast one answers 'level 3 tested yes', the plain one \
                'level 1 tested yes'";
    let listed: Vec<String> = list(&found, &run).collect();
    assert_eq!(
        listed,
        [
            "a.svw: level 2 tested yes\n".to_string(),
            format!("b.svw: {line}\n")
        ]
    );
    let named: Vec<String> = names(&found, &run, Required::default()).collect();
    assert_eq!(named, [format!("{line}  b.svw\n")]);
}
