//! What the tests of the commands share: running the kit, folders to work in, and files.
mod files;
mod folder;
mod run;
pub mod waves;

pub use crate::testing::{rising, table, table_2, table_3, Random};
pub use files::{example, example_bytes, examples, examples_ending, put, record};
pub use folder::Folder;
pub use run::{kit, kit_to, Failing, Ran};

/// Every command of the kit.
pub const COMMANDS: [&str; 7] = [
    "table", "show", "signals", "record", "judge", "picture", "batch",
];
