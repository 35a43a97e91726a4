//! Tables and records made of nodes and samples, and what is asked of them.
use xistomar::{Judge, Judgement, Level, Refusal};

/// A table of a version with these nodes: operator, x, y.
pub fn table(version: u16, nodes: &[[u8; 3]]) -> Vec<u8> {
    let nodes = nodes.iter().map(|&[operator, x, y]| [operator, x, y, 0]);
    file(b"SVT", version, &nodes.collect::<Vec<_>>())
}

/// A record of a version with these samples.
pub fn record(version: u16, samples: &[u64]) -> Vec<u8> {
    let samples = samples.iter().map(|sample| sample.to_le_bytes());
    file(b"SVW", version, &samples.collect::<Vec<_>>())
}

/// The form that both share: a mark, a version, a count, and parts of one size.
pub fn file<const SIZE: usize>(mark: &[u8; 3], version: u16, parts: &[[u8; SIZE]]) -> Vec<u8> {
    let mut bytes = mark.to_vec();
    bytes.extend(version.to_le_bytes());
    bytes.push(parts.len() as u8);
    bytes.extend(parts.concat());
    bytes
}

/// What both engines answer: the judge, and the plain judge.
pub fn judged(table: &[u8], samples: &[u64]) -> Judgement {
    let judgement = Judge::new().judge(table, samples).unwrap();
    assert_eq!(xistomar::plain_judge(table, samples), Ok(judgement));
    judgement
}

/// The level that both engines answer.
pub fn level(table: &[u8], samples: &[u64]) -> Level {
    judged(table, samples).level
}

/// The number and node of a refusal.
pub fn refused<T: std::fmt::Debug>(answer: Result<T, Refusal>) -> (u8, usize) {
    let refusal = answer.unwrap_err();
    (refusal.number(), refusal.node())
}
