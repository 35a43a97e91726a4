//! What stands below a node: the nodes, their rows, and the starts kept beside the rows.
use crate::check::MOST;
use crate::Row;

/// The starts of the matches that are not empty, for each sequence of a table without clocks: of a letter, the samples that have it.
pub type Starts = [u64; MOST];

pub struct Below<'a> {
    pub nodes: &'a [[u8; 4]],
    pub rows: &'a [Row],
    pub starts: &'a Starts,
}

impl Below<'_> {
    pub fn op(&self, v: u8) -> u8 {
        self.nodes[usize::from(v)][0]
    }

    pub fn row(&self, v: u8) -> &Row {
        &self.rows[usize::from(v)]
    }

    /// The starts of the sequence's matches that are not empty.
    pub fn starts(&self, v: u8) -> u64 {
        self.starts[usize::from(v)]
    }

    /// The starts of the sequence's matches, empty ones too.
    pub fn matched(&self, v: u8, n: usize) -> u64 {
        let all = u64::MAX >> (63 - n);
        // From n only the empty match can end.
        self.starts(v) | if self.row(v)[n] == 0 { 0 } else { all }
    }
}
