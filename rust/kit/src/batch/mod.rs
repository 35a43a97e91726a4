//! Many records, judged by one table.
mod find;
mod judging;
mod progress;
mod report;
#[cfg(test)]
mod tests;

pub use find::{find, Found};
pub use judging::{judge_all, Answer, By, Run};
pub use progress::Progress;
pub use report::{list, names, Report};
