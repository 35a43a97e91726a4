//! The answers as the library gives them, refused or not, with every field: level 0, not tested, an empty mask and count 0 come with a refusal.
//!
//! `include/xistomar.h` declares the same for C.

/// The number of the refusal, 1 to 15, and its node; both 0 where nothing is refused.
#[repr(C)]
#[derive(Clone, Copy, Debug, PartialEq, Eq)]
pub struct Verdict {
    /// The number of the refusal, or 0.
    pub number: u8,
    /// The node of the refusal, or 0.
    pub node: usize,
}

/// How many samples were read.
#[repr(C)]
#[derive(Clone, Copy, Debug, PartialEq, Eq)]
pub struct Reading {
    /// Whether the input was refused.
    pub verdict: Verdict,
    /// The samples read, 0 to 63.
    pub count: usize,
}

/// How many nodes the expanded table has.
#[repr(C)]
#[derive(Clone, Copy, Debug, PartialEq, Eq)]
pub struct Expansion {
    /// Whether the input was refused.
    pub verdict: Verdict,
    /// The nodes written, 1 to 120; 0 with a refusal.
    pub count: usize,
}

/// How many nodes the rewritten table has.
#[repr(C)]
#[derive(Clone, Copy, Debug, PartialEq, Eq)]
pub struct Rewriting {
    /// Whether the input was refused.
    pub verdict: Verdict,
    /// The nodes written, 1 to 120; 0 with a refusal.
    pub count: usize,
}

/// The level, 0 to 3, and whether the assertion was tested.
#[repr(C)]
#[derive(Clone, Copy, Debug, PartialEq, Eq)]
pub struct Judgement {
    /// Whether the input was refused.
    pub verdict: Verdict,
    /// The level's number.
    pub level: u8,
    /// Whether the record tested the assertion, as [`crate::Judgement::tested`] says.
    pub tested: bool,
}

/// The ends of the matches from the start, and whether the samples from there on, followed by one or more ⊤, match.
#[repr(C)]
#[derive(Clone, Copy, Debug, PartialEq, Eq)]
pub struct MatchEnds {
    /// Whether the input was refused.
    pub verdict: Verdict,
    /// Bit j is set where samples start to j - 1 match.
    pub mask: u64,
    /// Whether the samples from start on, followed by one or more ⊤, match.
    pub top: bool,
}

// A slice of the library is a pointer and a length, in this order.
extern "C" {
    fn xistomar_check(table: *const u8, table_bytes: usize) -> Verdict;
    fn xistomar_read(
        record: *const u8,
        record_bytes: usize,
        out: *mut u64,
        out_words: usize,
    ) -> Reading;
    fn xistomar_expand(
        table: *const u8,
        table_bytes: usize,
        out: *mut u8,
        out_bytes: usize,
    ) -> Expansion;
    fn xistomar_rewrite(
        table: *const u8,
        table_bytes: usize,
        out: *mut u8,
        out_bytes: usize,
    ) -> Rewriting;
    fn xistomar_judge(
        table: *const u8,
        table_bytes: usize,
        samples: *const u64,
        sample_count: usize,
        workspace: *mut u64,
        workspace_words: usize,
    ) -> Judgement;
    fn xistomar_plain_judge(
        table: *const u8,
        table_bytes: usize,
        samples: *const u64,
        sample_count: usize,
    ) -> Judgement;
    fn xistomar_match_ends(
        table: *const u8,
        table_bytes: usize,
        samples: *const u64,
        sample_count: usize,
        start: usize,
        workspace: *mut u64,
        workspace_words: usize,
    ) -> MatchEnds;
    fn xistomar_line(input: *const u8, input_bytes: usize, line: *mut [u8; LINE]) -> usize;
}

/// The bytes of the longest line.
pub const LINE: usize = 19;

/// Checks a table.
pub fn check(table: &[u8]) -> Verdict {
    // SAFETY: the pointer lends the slice's own bytes. The function is proved for all bytes, and keeps no pointer.
    unsafe { xistomar_check(table.as_ptr(), table.len()) }
}

/// Reads a record into the first words of `out`.
pub fn read(record: &[u8], out: &mut [u64]) -> Reading {
    // SAFETY: as in `check`; a shared and an exclusive slice do not overlap.
    unsafe { xistomar_read(record.as_ptr(), record.len(), out.as_mut_ptr(), out.len()) }
}

/// Expands the derived operators of a table, into the first bytes of `out`.
pub fn expand(table: &[u8], out: &mut [u8]) -> Expansion {
    // SAFETY: as in `read`.
    unsafe { xistomar_expand(table.as_ptr(), table.len(), out.as_mut_ptr(), out.len()) }
}

/// Rewrites the clocks of a table away, into the first bytes of `out`.
pub fn rewrite(table: &[u8], out: &mut [u8]) -> Rewriting {
    // SAFETY: as in `read`.
    unsafe { xistomar_rewrite(table.as_ptr(), table.len(), out.as_mut_ptr(), out.len()) }
}

/// Judges the property at the table's root on the samples, and leaves the rows in the workspace.
pub fn judge(table: &[u8], samples: &[u64], workspace: &mut [u64]) -> Judgement {
    // SAFETY: as in `read`.
    unsafe {
        xistomar_judge(
            table.as_ptr(),
            table.len(),
            samples.as_ptr(),
            samples.len(),
            workspace.as_mut_ptr(),
            workspace.len(),
        )
    }
}

/// Judges as [`judge`] does, by the clocked table itself, with no workspace.
pub fn plain_judge(table: &[u8], samples: &[u64]) -> Judgement {
    // SAFETY: as in `check`; nothing is written.
    unsafe { xistomar_plain_judge(table.as_ptr(), table.len(), samples.as_ptr(), samples.len()) }
}

/// The match ends of the sequence at the table's root, from a start; leaves the rows in the workspace.
pub fn match_ends(table: &[u8], samples: &[u64], start: usize, workspace: &mut [u64]) -> MatchEnds {
    // SAFETY: as in `read`.
    unsafe {
        xistomar_match_ends(
            table.as_ptr(),
            table.len(),
            samples.as_ptr(),
            samples.len(),
            start,
            workspace.as_mut_ptr(),
            workspace.len(),
        )
    }
}

/// Puts the program's line for an input, a table and then a record, at the start of `line`, and answers how many bytes it has.
pub fn line(input: &[u8], line: &mut [u8; LINE]) -> usize {
    // SAFETY: as in `read`.
    unsafe { xistomar_line(input.as_ptr(), input.len(), line) }
}

#[cfg(test)]
mod tests {
    use super::*;
    use std::mem::{offset_of, size_of};

    /// The layout that C gives the structs of `include/xistomar.h` where `size_t` has 64 bits;
    /// `tools/c-example` has the C compiler assert the same numbers.
    #[test]
    fn structs_are_laid_out_as_in_the_header() {
        assert_eq!(size_of::<Verdict>(), 16);
        assert_eq!(offset_of!(Verdict, number), 0);
        assert_eq!(offset_of!(Verdict, node), 8);

        assert_eq!(size_of::<Reading>(), 24);
        assert_eq!(offset_of!(Reading, verdict), 0);
        assert_eq!(offset_of!(Reading, count), 16);

        assert_eq!(size_of::<Expansion>(), 24);
        assert_eq!(offset_of!(Expansion, verdict), 0);
        assert_eq!(offset_of!(Expansion, count), 16);

        assert_eq!(size_of::<Rewriting>(), 24);
        assert_eq!(offset_of!(Rewriting, verdict), 0);
        assert_eq!(offset_of!(Rewriting, count), 16);

        assert_eq!(size_of::<Judgement>(), 24);
        assert_eq!(offset_of!(Judgement, verdict), 0);
        assert_eq!(offset_of!(Judgement, level), 16);
        assert_eq!(offset_of!(Judgement, tested), 17);

        assert_eq!(size_of::<MatchEnds>(), 32);
        assert_eq!(offset_of!(MatchEnds, verdict), 0);
        assert_eq!(offset_of!(MatchEnds, mask), 16);
        assert_eq!(offset_of!(MatchEnds, top), 24);
    }
}
