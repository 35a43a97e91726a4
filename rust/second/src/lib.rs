//! A second opinion on clocked assertions over sampled records.
//!
//! Every answer follows the rules of docs/FORMAT.md, clause by clause, on explicit
//! letters. It is slow on purpose and shares nothing with the product.

#![forbid(unsafe_code)]

mod answers;
mod case;
mod count;
mod damage;
mod damage_derived;
mod derived;
mod expansion;
mod generate;
mod grow;
mod grow_derived;
mod hollow;
mod listed;
#[cfg(test)]
mod literal;
mod matching;
mod meaning;
mod node;
mod random;
mod record;
mod recording;
mod rewriting;
mod rows;
mod shrink;
mod stored;
mod table;
mod tested;
#[cfg(test)]
mod tests;
mod text;
mod verdict;
mod versions;
mod words;

pub use answers::{check, expand, judge, level, line, match_ends, plain_judge, read, rewrite};
pub use answers::{Expansion, Judgement, MatchEnds, Reading, Rewriting};
pub use case::{answer, lent_bytes, lent_samples, lent_workspace, Answer, Case};
pub use generate::random_case;
pub use listed::listed;
pub use shrink::shrink;
pub use stored::stored;
pub use text::{answer_text, case_text, parse_case};
pub use verdict::Verdict;
