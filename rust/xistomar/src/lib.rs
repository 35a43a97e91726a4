//! A proved judge of clocked assertions, for Rust.
//!
//! An assertion comes as a **table**, a small file of nodes; what a probe saw comes as a
//! **record**, a file of at most 63 samples of 64 signals. The judge answers the [`Level`] at which
//! the assertion holds on the samples. Bad input is refused with a [`Refusal`], and then nothing
//! lent is changed. docs/FORMAT.md has the bytes of both, what each operator says, the numbers of
//! refusal and the rows.
//!
//! A table is of version 1, 2 or 3, a record of version 1. A version 2 table may also ask whether a
//! signal has risen or fallen since the sample before (operators 5 and 6); the sample before the
//! first is all zero. So a letter is a pair of samples, made of all the samples that are lent,
//! whatever the start. A version 3 table may also have derived operators (23 to 26 and 41 to 47):
//! [`expand`] makes a version 2 table of it, and rewriting, judging and matching are of that one.
//!
//! Two judges answer the same, each proved by itself: [`judge`], which rewrites the clocks of a table
//! away and leaves rows in a workspace ([`Judge`] has one of its own), and [`plain_judge`], which reads
//! the clocked table directly and needs none.
//!
//! Every answer comes from the proved static library, which takes any bytes, samples and sizes.
//! This crate puts its answers into Rust's types and judges nothing by itself; [`raw`] has them as
//! the library gives them.
//!
//! # Example
//!
//! strong(a ##1 b), where a is signal 0 and b is signal 1, on one sample in which a is high:
//! nothing is broken, and the assertion still waits for b.
//!
//! ```
//! use xistomar::{Judge, Level};
//!
//! let table = [
//!     0x53, 0x56, 0x54, 0x01, 0x00, 0x06, // SVT, version 1, six nodes
//!     1, 0, 0, 0, // node 0: signal 0, which is a
//!     1, 1, 0, 0, // node 1: signal 1, which is b
//!     16, 0, 0, 0, // node 2: a letter that satisfies a
//!     16, 1, 0, 0, // node 3: a letter that satisfies b
//!     17, 2, 3, 0, // node 4: a ##1 b
//!     32, 4, 0, 0, // node 5: strong(a ##1 b)
//! ];
//! let record = [
//!     0x53, 0x56, 0x57, 0x01, 0x00, 0x01, // SVW, version 1, one sample
//!     1, 0, 0, 0, 0, 0, 0, 0, // a is high, b is low
//! ];
//!
//! let samples = xistomar::samples(&record)?;
//! let judgement = Judge::new().judge(&table, &samples)?;
//! assert_eq!(judgement.level, Level::Weak);
//! assert!(judgement.tested);
//! assert_eq!(judgement.to_string(), "level 1 tested yes");
//! # Ok::<(), xistomar::Refusal>(())
//! ```
#![warn(missing_docs)]
#![deny(unsafe_code)]

mod answers;
mod owned;
#[allow(unsafe_code)]
pub mod raw;
mod refusal;

pub use answers::{Judgement, Level, MatchEnds};
pub use owned::{expanded, samples, Judge};
pub use refusal::Refusal;

/// The samples of a record, at most.
pub const LONGEST: usize = 63;

/// The words of the workspace that each rewritten node owns.
pub const SHARE: usize = 65;

/// The words of a workspace that are enough for every table.
pub const WORKSPACE: usize = 7800;

/// The bytes that are enough for every expanded or rewritten table.
pub const TABLE_BYTES: usize = 486;

/// Checks a table of version 1, 2 or 3: refusals 1 to 9. Of version 3, 9 is read on its expansion, and one
/// that [`expand`] refuses with 13 is accepted.
pub fn check(table: &[u8]) -> Result<(), Refusal> {
    refusal::settle(raw::check(table))
}

/// Reads a record's samples into the first words of `out` and answers how many they are; later
/// words stay. [`LONGEST`] words are enough for every record.
///
/// Refusals 1, 2, 3, 10, 5, 15, in this order.
pub fn read(record: &[u8], out: &mut [u64]) -> Result<usize, Refusal> {
    let reading = raw::read(record, out);
    refusal::settle(reading.verdict)?;
    Ok(reading.count)
}

/// Expands the derived operators of a version 3 table and answers how many nodes the new table has. A
/// new table of m nodes, of version 2 and with base operators alone, is written to the first 6 + 4m
/// bytes of `out`; later bytes stay. A table of version 1 or 2 is copied as it is. [`TABLE_BYTES`]
/// bytes are enough for every table; [`expanded`] has them of its own.
///
/// Refusals 1 to 9, 13, 15, in this order; 9 names the node of the table that is given.
pub fn expand(table: &[u8], out: &mut [u8]) -> Result<usize, Refusal> {
    let expansion = raw::expand(table, out);
    refusal::settle(expansion.verdict)?;
    Ok(expansion.count)
}

/// Rewrites the clocks of a table away and answers how many nodes the new table has. A new table of
/// m nodes, of the same version or of 2 for a version 3 table, is written to the first 6 + 4m bytes of `out`; later bytes stay.
/// [`TABLE_BYTES`] bytes are enough for every table.
///
/// Refusals 1 to 9, 13, 15, in this order.
pub fn rewrite(table: &[u8], out: &mut [u8]) -> Result<usize, Refusal> {
    let rewriting = raw::rewrite(table, out);
    refusal::settle(rewriting.verdict)?;
    Ok(rewriting.count)
}

/// Judges the property at the table's root on the samples. Each rewritten node's row is left in its
/// [`SHARE`] words of the workspace; later words stay. What the workspace held before has no part
/// in the answer.
///
/// Refusals 1 to 9, 12, 13, 10, 11, in this order.
pub fn judge(table: &[u8], samples: &[u64], workspace: &mut [u64]) -> Result<Judgement, Refusal> {
    answers::settle(raw::judge(table, samples, workspace))
}

/// Judges as [`judge`] does, by a second engine that is proved by itself: it reads the clocked table
/// directly, with no rewritten table and no workspace. Where [`judge`] accepts, both give the same
/// level and flag; a table whose rewriting has more than 120 nodes, which [`judge`] refuses with 13,
/// is answered too. It calls itself on a node's operands, and no table needs more than 256 KiB of
/// stack for that.
///
/// Refusals 1 to 9, 12, 13, 10, in this order; 13 where the expansion of a version 3 table has more than
/// 120 nodes.
///
/// ```
/// // @(a) over eight nexttimes of strong(a), each rewritten to 14 nodes
/// let mut table = b"SVT\x01\x00\x0c".to_vec();
/// table.extend([1, 0, 0, 0, 16, 0, 0, 0, 32, 1, 0, 0]);
/// for operand in 2..10 {
///     table.extend([38, operand, 0, 0]);
/// }
/// table.extend([40, 0, 10, 0]);
///
/// let refusal = xistomar::Judge::new().judge(&table, &[1; 9]).unwrap_err();
/// assert_eq!(refusal.number(), 13);
/// let judgement = xistomar::plain_judge(&table, &[1; 9])?;
/// assert_eq!(judgement.to_string(), "level 3 tested yes");
/// # Ok::<(), xistomar::Refusal>(())
/// ```
pub fn plain_judge(table: &[u8], samples: &[u64]) -> Result<Judgement, Refusal> {
    answers::settle(raw::plain_judge(table, samples))
}

/// The ends of the matches, from sample `start` on, of the sequence at the table's root. In a version
/// 2 table the sample before `start` still counts. Leaves the rows in the workspace as [`judge`] does.
///
/// Refusals 1 to 9, 12, 13, 10, 14, 11, in this order.
pub fn match_ends(
    table: &[u8],
    samples: &[u64],
    start: usize,
    workspace: &mut [u64],
) -> Result<MatchEnds, Refusal> {
    let ends = raw::match_ends(table, samples, start, workspace);
    refusal::settle(ends.verdict)?;
    Ok(MatchEnds {
        mask: ends.mask,
        top: ends.top,
    })
}

/// The program's line for an input, which is a table and then a record: `level 1 tested yes` or `refused 9 at 3`, without its newline. The table's refusals come
/// before the record's.
pub fn line(input: &[u8]) -> String {
    let mut line = [0; raw::LINE];
    let bytes = raw::line(input, &mut line);
    String::from_utf8_lossy(&line[..bytes])
        .trim_end()
        .to_string()
}
