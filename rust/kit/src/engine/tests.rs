use super::*;
use crate::testing::table;
use std::path::Path;
use xistomar::Level;

/// strong(a), a[*1:$] and strong(a[*0]).
fn tables() -> [Vec<u8>; 3] {
    [[32, 1, 0], [21, 1, 0], [20, 1, 0]].map(|last| {
        let mut nodes = vec![[1, 0, 0], [16, 0, 0], last];
        if last[0] == 20 {
            nodes.push([32, 2, 0]);
        }
        table(&nodes)
    })
}

/// @(a) over eight nexttimes of strong(a): 124 rewritten nodes.
fn past() -> Vec<u8> {
    let mut nodes = vec![[1, 0, 0], [16, 0, 0], [32, 1, 0]];
    nodes.extend((2..10).map(|below| [38, below, 0]));
    nodes.push([40, 0, 10]);
    table(&nodes)
}

fn judgement(level: Level, tested: bool) -> Judgement {
    Judgement { level, tested }
}

/// The refusals of a sequence root, of a hollow one and of one past 13.
fn refusals() -> [Refusal; 3] {
    let [_, sequence, hollow] = tables();
    [sequence, hollow, past()].map(|table| Judge::new().judge(&table, &[]).unwrap_err())
}

#[test]
fn what_is_the_same_is_agreed() {
    let [twelve, nine, thirteen] = refusals();
    let held = judgement(Level::Strong, true);
    assert_eq!(agreed(Ok(held), Ok(held), 3), Ok(held));
    for refusal in [twelve, nine] {
        let refused = Err(Unjudged::Refused(refusal));
        assert_eq!(agreed(Err(refusal), Err(refusal), 3), refused);
    }
    // the fast engine alone refuses with 13
    let refused = Err(Unjudged::Refused(thirteen));
    assert_eq!(agreed(Err(thirteen), Ok(held), 3), refused);
}

#[test]
fn every_other_difference_is_a_defect() {
    let [twelve, nine, thirteen] = refusals();
    let (held, open) = (judgement(Level::Strong, true), judgement(Level::Weak, true));
    let untested = judgement(Level::Strong, false);
    for (fast, plain) in [
        (Ok(held), Ok(open)),
        (Ok(held), Ok(untested)),
        (Ok(held), Err(twelve)),
        (Err(twelve), Ok(held)),
        (Err(twelve), Err(nine)),
        (Err(thirteen), Err(twelve)),
        (Ok(held), Err(thirteen)),
    ] {
        let difference = Difference {
            fast,
            plain,
            samples: 3,
        };
        assert_eq!(agreed(fast, plain, 3), Err(Unjudged::Differ(difference)));
    }
}

#[test]
fn a_difference_names_both_answers() {
    let difference = Difference {
        fast: Ok(judgement(Level::Neutral, false)),
        plain: Err(refusals()[0]),
        samples: 1,
    };
    assert_eq!(
        difference.words(),
        "the two engines differ on the first 1 sample: the fast one answers 'level 2 tested no', the plain one 'refused \
         12 at 0'.\nThat is a defect of Xistomar, and neither answer is to be trusted: please report it, with the table \
         and the record"
    );
}

#[test]
fn a_difference_has_a_status_of_its_own() {
    let held = judgement(Level::Strong, true);
    let difference = Difference {
        fast: Ok(held),
        plain: Ok(judgement(Level::Strong, false)),
        samples: 2,
    };
    let failure = difference.failure(&[Path::new("t.svt"), Path::new("r.svw")]);
    assert_eq!(failure.status(), 5);
    let begins = "t.svt and r.svw: the two engines differ on the first 2 samples: ";
    assert!(failure.words().starts_with(begins), "{}", failure.words());
}

#[test]
fn past_13_the_plain_engine_judges_alone() {
    let mut engines = Engines::of(Engine::Both, &past()).unwrap();
    assert_eq!(engines.engine(), Engine::Plain);
    assert_eq!(engines.past().map(|refusal| refusal.number()), Some(13));
    let held = judgement(Level::Strong, true);
    assert_eq!(engines.judge(&past(), &[1; 9]), Ok(held));
    assert_eq!(engines.rows(), None);

    let fast = Engines::of(Engine::Fast, &past()).unwrap_err();
    assert_eq!(fast, Unjudged::Refused(refusals()[2]));
    let plain = Engines::of(Engine::Plain, &past()).unwrap();
    assert_eq!((plain.engine(), plain.past()), (Engine::Plain, None));
}

#[test]
fn each_engine_is_the_one_asked_for() {
    let [strong, sequence, hollow] = tables();
    for engine in [Engine::Both, Engine::Fast, Engine::Plain] {
        let mut engines = Engines::of(engine, &strong).unwrap();
        assert_eq!((engines.engine(), engines.past()), (engine, None));
        let held = judgement(Level::Strong, true);
        assert_eq!(engines.judge(&strong, &[1]), Ok(held));
        assert_eq!(engines.rows().is_some(), engine != Engine::Plain);
        for (table, refusal) in [(&sequence, refusals()[0]), (&hollow, refusals()[1])] {
            let refused = Engines::of(engine, table).unwrap_err();
            assert_eq!(refused, Unjudged::Refused(refusal));
        }
    }
}
