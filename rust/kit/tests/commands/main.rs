//! The commands of the kit from their command lines, all in one program, which builds faster than one
//! for each command.
mod bad_input;
mod batch;
mod derived;
mod engine;
mod formats;
mod judge;
mod names;
mod options;
mod outputs;
mod patterns;
mod picture;
mod record;
mod show;
#[cfg(target_os = "linux")]
mod stream;
mod stretches;
mod support;
mod table;
#[path = "../../src/testing.rs"]
mod testing;
mod waveforms;
