//! The judge's row rules and the expander in safe Rust, by word operations and without proof: the baseline that the proved ones are measured against.
//!
//! It does the same whole work and leaves every same word: it checks the table, rewrites the clocks away, fills every row in the workspace, reads the level off the last
//! one and asks the clocked table whether it was tested. It is written for speed, with every shortcut that is known:
//!
//! - the check is one pass with a few operations on words for each node: what an operator asks of its bytes, of its operands' sorts and of their flags is a mask or a
//!   truth table (`lines`); only a table that is not in order is gone through again, for its refusal;
//! - a table with no clock whose booleans stand first is its own rewriting, and nothing is written; others take a pass down and two up;
//! - the starts of the matches that are not empty are kept beside the rows, a word a sequence: strong and weak read them at once, and a letter's are its samples;
//! - `##1` and `##0` with a letter or with `[*0]` on a side, and `[*1:$]` of a letter or of a repetition, walk no ends (`sequences`);
//! - other walks take over what the last start with ends has reached, where its ends are covered, and visit only ends that lead somewhere; a repetition visits only ends that it has
//!   not reached yet; and after many visits in one row four neighbouring ends are looked up at once (`walks`, `fours`);
//! - `R |-> P` of a letter, and of a P that holds at all samples or at none, is a few operations on words, and two tails with the same samples are asked once; the same
//!   for tested;
//! - until is one addition with carries, on words turned round;
//! - a few signals are gathered one by one, and more by turning all samples round once (`signals`);
//! - rows are made eight words at a time, two words to an operation where there is no walk, and the sets of one place are read from an array (`words`).
//!
//! The proved code has the one pass of the check, the three of rewriting, the walks that take over and skip, and the letters without walks too, a letter's samples
//! beside the rows among them. It does not have the rest: it always writes the new table, finds the starts of other sequences from their rows, walks where here ends are
//! looked up by fours, gathers each signal, asks of a row whether a match leads back, and finishes each row by its rule.
#![forbid(unsafe_code)]

mod answers;
mod below;
mod blocks;
mod booleans;
mod check;
mod expand;
mod fill;
mod fours;
mod judge;
mod lines;
mod operators;
mod properties;
mod rewrite;
mod sequences;
mod signals;
mod sizes;
mod tested;
mod tops;
mod walks;
mod words;

pub use answers::{Expansion, Judgement, MatchEnds, Rewriting, Verdict};
pub use check::check;
pub use expand::expand;
pub use judge::{judge, match_ends};
pub use rewrite::rewrite;

/// The words that a node owns in the workspace.
pub const SHARE: usize = 65;

/// The samples of a record, at most.
pub const LONGEST: usize = 63;

/// The word of a sequence that tells of the letters ⊤ after the record.
const TOP: usize = 64;

/// The words of one node.
type Row = [u64; SHARE];
