//! The decisive part in words.
use super::account::{Account, Explained};
use crate::assertion::Operator;
use xistomar::Level;

/// Which part was decisive, from which sample on it was asked, and what came of it.
pub fn part_words(account: &Account, explained: &Explained) -> String {
    let part = match explained.whole {
        true => "the whole assertion",
        false => &explained.part,
    };
    let from = from_words(account, explained.decisive.from);
    let what = what_words(account, explained);
    let mut text = format!("Decisive: {part}, asked from {from}: {what}.\n");
    if let Some(so) = consequence(account.verdict.judgement.level, explained) {
        text.push_str(so);
        text.push('\n');
    }
    text
}

fn from_words(account: &Account, from: usize) -> String {
    match from < account.verdict.samples() {
        true => account.sample(from),
        false => format!("sample {from}, which is still to come"),
    }
}

/// What came of the part: of a promise of a sequence its match, of other parts what counts in them.
fn what_words(account: &Account, explained: &Explained) -> String {
    let decisive = &explained.decisive;
    let at = match decisive.closed {
        Some(sample) => format!(" at {}", account.sample(sample)),
        None => String::new(),
    };
    let promise = matches!(explained.operator, Operator::Strong | Operator::Weak);
    match (decisive.level, decisive.matched) {
        (_, Some((first, last))) if first == last => {
            format!("matched at {}", account.sample(first))
        }
        (_, Some((first, last))) => format!("matched by samples {first} to {last}"),
        (Level::Broken, _) if promise => format!("broken{at}, for it can no longer match"),
        (Level::Weak, _) if promise && !decisive.turned => {
            "still waiting for its match".to_string()
        }
        (_, _) if promise => "it has not matched yet, and still can".to_string(),
        (level, _) => match (level, counting(explained, level)) {
            (Level::Broken, why) => format!("broken{at}{why}"),
            (Level::Weak, why) => format!("still waiting{why}"),
            (Level::Neutral, why) => format!("held so far{why}"),
            (Level::Strong, why) => format!("held{at}{why}"),
        },
    }
}

/// What counts in a part of which no operand alone is decisive.
fn counting(explained: &Explained, level: Level) -> String {
    let decisive = &explained.decisive;
    if let (Some(awaiting), false) = (decisive.awaiting, decisive.asked) {
        return format!("; {}", awaiting.words());
    }
    let words = match (explained.operator, level) {
        (Operator::Implies | Operator::ImpliesNext, _) => implying(explained, level),
        (Operator::Followed | Operator::FollowedNext, _) => following(explained, level),
        (Operator::Nexttime | Operator::StrongNexttime, _) => {
            "; the sample that it asks about is still to come"
        }
        (Operator::Until | Operator::Always, Level::Neutral) => {
            ", and what comes next may break it"
        }
        (Operator::Eventually, Level::Neutral) => return holding(decisive.since),
        (Operator::Eventually, _) => ", for it has not come yet",
        (Operator::StrongUntil, Level::Weak) => ", for its right side has not come yet",
        (Operator::PropertyOr, Level::Broken) => ", as both its sides are",
        (Operator::PropertyAnd, Level::Strong) => ", as both its sides did",
        _ => "; both its sides count",
    };
    words.to_string()
}

/// What counts in an s_eventually that holds as the record stands.
fn holding(since: Option<usize>) -> String {
    let from = since.map_or(String::new(), |sample| format!(" from sample {sample}"));
    format!(", for what it awaits holds{from} as the record stands; what comes next may break that")
}

/// What counts in a `|->` or `|=>`.
fn implying(explained: &Explained, level: Level) -> &'static str {
    match (level, explained.decisive.asked) {
        (Level::Strong, false) => {
            ", for its left side can no longer match from there: nothing was asked"
        }
        (_, false) => ", for its left side has not matched from there yet",
        (Level::Strong, _) => "; no match of its left side was broken, and none is still to come",
        (Level::Neutral, _) => "; no match of its left side was broken, and one may still be",
        _ => "; every match of its left side counts",
    }
}

/// What counts in a `#-#` or `#=#`.
fn following(explained: &Explained, level: Level) -> &'static str {
    match (level, explained.decisive.asked) {
        (Level::Broken, false) => ", for its left side can no longer match from there",
        (_, false) => ", for its left side has not matched from there yet",
        (Level::Broken, _) => {
            "; its right side held at no match of its left side, and none is still to come"
        }
        _ => "; every match of its left side counts",
    }
}

/// What the part means for the assertion, where that is not plain: under `not` the levels are turned
/// round, and an open assertion is never above its decisive part, however the record goes on.
fn consequence(level: Level, explained: &Explained) -> Option<&'static str> {
    match (explained.decisive.turned, level) {
        (true, Level::Broken) => Some("It stands under not, so that it broke the assertion."),
        (true, Level::Strong) => Some("It stands under not, so that the assertion held."),
        (true, _) => Some("It stands under not: once it holds for good, the assertion is broken."),
        (false, Level::Weak | Level::Neutral) if !explained.whole => {
            Some("Once it is broken, so is the assertion.")
        }
        _ => None,
    }
}
