//! The bench kit: assertions as text, waveforms as records, and the judge's verdict in words, as a
//! picture and over many records.
//!
//! The kit judges nothing by itself. Every level, tick and match that it shows is an answer of the
//! proved library, through the crate `xistomar`.
#![warn(missing_docs)]
#![deny(unsafe_code)]
// Bad input must never end in a panic, so nothing here may ask for one.
#![cfg_attr(
    not(test),
    deny(
        clippy::unwrap_used,
        clippy::expect_used,
        clippy::panic,
        clippy::unreachable,
        clippy::indexing_slicing,
        clippy::string_slice
    )
)]

mod assertion;
mod batch;
mod beside;
mod commands;
mod console;
mod engine;
mod failure;
mod files;
mod names;
mod notation;
mod once;
mod options;
mod origin;
mod output;
mod picture;
mod refusals;
mod required;
mod sha256;
mod sizes;
mod source;
#[cfg(test)]
mod testing;
mod vcd;
mod verdict;
mod words;

/// The version of the kit.
const VERSION: &str = env!("CARGO_PKG_VERSION");

pub use commands::run;
pub use console::Console;
