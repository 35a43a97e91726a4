//! Compares the proved library with the independent program `second` on random cases: every field
//! of every answer, and every byte and word that was lent.
//!
//! `tests/fresh.rs` does it on new cases each time, and on those that `second` lists. `XISTOMAR_SEED` fixes the seed and
//! `XISTOMAR_CASES` the number of cases.
#![warn(missing_docs)]
#![forbid(unsafe_code)]

mod difference;
mod library;
mod listed;
mod run;
mod summary;
#[cfg(test)]
mod tests;

pub use difference::Difference;
pub use library::answer as library_answer;
pub use listed::compare_listed;
pub use run::{Run, Side};
pub use summary::Summary;
