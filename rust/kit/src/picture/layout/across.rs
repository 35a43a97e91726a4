//! Where the columns stand, from left to right.
use super::{
    row_names, whole, ASSERTION_EDGE, COLUMNS, GAP, LONGEST_NAME, MARGIN, NARROWEST, NO_SAMPLES,
    SHARED, START, TAIL,
};
use crate::picture::scene::Scene;
use crate::picture::style::{ASSERTION, COMMENT, NAME};
use crate::picture::text::{cells, room, shorten};

/// Where the columns stand.
#[derive(Clone, Debug, PartialEq, Eq)]
pub struct Across {
    /// The right end of the rows' names.
    pub names: i32,
    /// The left border of the start.
    pub start: i32,
    /// The left border of sample 0.
    pub origin: i32,
    /// The width of a sample's column, an even number.
    pub column: i32,
    /// The left border of the tail.
    pub tail: i32,
    /// The right border of the tail.
    pub end: i32,
    /// The width of the picture.
    pub width: i32,
}

impl Across {
    /// The columns of a scene.
    pub fn of(scene: &Scene) -> Across {
        let longest = row_names(scene).map(|name| cells(&shorten(&name, LONGEST_NAME)));
        let names = MARGIN + room(longest.max().unwrap_or_default(), NAME.size);
        let start = names + GAP;
        let origin = start + START;
        let samples = whole(scene.verdict.samples());
        let (widest, narrowest) = COLUMNS;
        let column = (SHARED / samples.max(1)).clamp(narrowest, widest) / 2 * 2;
        let tail = match samples {
            0 => origin + NO_SAMPLES,
            _ => origin + samples * column,
        };
        let width = NARROWEST.max(tail + TAIL + MARGIN);
        Across {
            names,
            start,
            origin,
            column,
            tail,
            end: width - MARGIN,
            width,
        }
    }

    /// The left border of a sample's column.
    pub fn left(&self, sample: usize) -> i32 {
        self.origin + whole(sample) * self.column
    }

    /// The middle of a sample's column.
    pub fn middle(&self, sample: usize) -> i32 {
        self.left(sample) + self.column / 2
    }

    /// The left border and the width of the column that shows the level after so many samples: the
    /// start's, or that of the last of them.
    pub fn after(&self, samples: usize) -> (i32, i32) {
        match samples.checked_sub(1) {
            None => (self.start, START),
            Some(last) => (self.left(last), self.column),
        }
    }

    /// The middle of the tail.
    pub fn tail_middle(&self) -> i32 {
        (self.tail + self.end) / 2
    }

    /// The cells that a line of the assertion has room for.
    pub fn line_cells(&self) -> usize {
        let room = self.width - 2 * MARGIN - 2 * ASSERTION_EDGE;
        usize::try_from(room * 10 / (ASSERTION.size * 6)).unwrap_or_default()
    }

    /// The cells that a line of the comment has room for: 0.65 em each, since the letters of its font are
    /// not all of one width, and capitals are wide.
    pub fn comment_cells(&self) -> usize {
        let room = self.width - 2 * MARGIN;
        usize::try_from(room * 100 / (COMMENT.size * 65)).unwrap_or_default()
    }
}
