//! Where everything stands, in pixels from the upper left corner.
//!
//! From left to right: the rows' names, a column for the start, one for each sample, and the tail.
//! From top to bottom: the heading, the flag where the level is closed, the axis with the times, a row for
//! each clock, for what rises or falls, for each signal and for each `|->`, the mark of the decisive part,
//! the axis once more where there are many rows, the levels, the legend, the origin.
mod across;
mod down;

use super::scene::Scene;
use super::style::FLAG;
use super::text::{cells, room, wrap};
use super::{heading, legend, origin};
pub use across::Across;
pub use down::Down;

/// The white space around the picture.
pub const MARGIN: i32 = 16;
/// The least width: the legend then has two lines.
pub const NARROWEST: i32 = 720;
/// The most cells of a row's name.
pub const LONGEST_NAME: usize = 28;
/// The space between a row's name and the row.
pub const GAP: i32 = 10;
/// The column of the start.
pub const START: i32 = 48;
/// The widest and the narrowest column of a sample.
pub const COLUMNS: (i32, i32) = (80, 16);
/// The room that the columns share before they get narrower.
pub const SHARED: i32 = 720;
/// What stands in place of the columns where there are no samples.
pub const NO_SAMPLES: i32 = 96;
/// The narrowest tail.
pub const TAIL: i32 = 112;
/// A line of the comment.
pub const COMMENT_LINE: i32 = 19;
/// The space between the comment and the program's line.
pub const COMMENT_APART: i32 = 6;
/// The baseline of the program's line where there is no comment.
pub const FIRST_BASELINE: i32 = MARGIN + 16;
/// From one line of the heading to the next.
pub const HEADING_LINE: i32 = 22;
/// A line of the assertion.
pub const ASSERTION_LINE: i32 = 18;
/// The space around all lines of the assertion.
pub const ASSERTION_EDGE: i32 = 6;
/// The row of the flag.
pub const FLAG_ROW: i32 = 22;
/// The height of the flag, and what it is wider than its words.
pub const FLAG_SIZE: (i32, i32) = (18, 12);
/// The row of the axis.
pub const AXIS_ROW: i32 = 20;
/// The least space between two numbers of the axis.
pub const AXIS_APART: i32 = 6;
/// The row of the times, below the axis.
pub const TIME_ROW: i32 = 18;
/// The least space between two times, which have blanks in them.
pub const TIME_APART: i32 = 14;
/// The most cells of a time.
pub const LONGEST_TIME: usize = 28;
/// The row of a clock.
pub const CLOCK_ROW: i32 = 24;
/// Half the width of a tick's mark, its height, and its distance from the upper end of its row.
pub const TICK_MARK: (i32, i32, i32) = (5, 9, 7);
/// The row of what rises or falls.
pub const CHANGE_ROW: i32 = 24;
/// The distance of an arrow from the upper end of its row, its height, and that of its head, which is
/// half as wide.
pub const ARROW: (i32, i32, i32) = (5, 14, 6);
/// The row of a signal.
pub const SIGNAL_ROW: i32 = 28;
/// Where a signal's high and low stand in its row.
pub const SIGNAL: (i32, i32) = (6, 24);
/// The row of a `|->`.
pub const IMPLICATION_ROW: i32 = 24;
/// The radius of the mark of a `|->` that was asked, and of one that was only reached.
pub const ASKED_MARK: (i32, i32) = (5, 3);
/// The row of the decisive part's mark.
pub const SPAN_ROW: i32 = 36;
/// Where that mark begins, has its line, and ends in its row.
pub const SPAN: (i32, i32, i32) = (8, 13, 18);
/// The space between the mark and the borders of its columns, and between its words and the line of the
/// flag.
pub const SPAN_EDGE: (i32, i32) = (4, 6);
/// The rows from which on the axis stands above the levels too.
pub const MANY_ROWS: usize = 16;
/// What the bar of a level is higher than that of the level below it; level 0 is as high.
pub const STEP: i32 = 14;
/// The length of the arrow's head.
pub const HEAD: i32 = 14;
/// The row of the levels' digits.
pub const DIGIT_ROW: i32 = 20;
/// A line of the legend.
pub const LEGEND_LINE: i32 = 20;
/// The size of a level's rectangle in the legend.
pub const SWATCH: (i32, i32) = (20, 12);
/// The space between two entries of the legend.
pub const LEGEND_APART: i32 = 18;
/// A line of the origin.
pub const ORIGIN_LINE: i32 = 14;
/// The space between the legend and the origin.
pub const ORIGIN_APART: i32 = 8;
/// The most cells of a label of the origin.
pub const LONGEST_LABEL: usize = 12;
/// The space between two parts of the picture.
pub const BREAK: i32 = 12;

/// The distance of the baselines from the upper ends of their rows.
pub mod baseline {
    /// A line of the comment.
    pub const COMMENT: i32 = 13;
    /// A line of the assertion.
    pub const ASSERTION: i32 = 13;
    /// The flag.
    pub const FLAG: i32 = 13;
    /// The axis.
    pub const AXIS: i32 = 13;
    /// The times.
    pub const TIME: i32 = 11;
    /// A clock.
    pub const CLOCK: i32 = 16;
    /// What rises or falls.
    pub const CHANGE: i32 = 16;
    /// A signal.
    pub const SIGNAL: i32 = 19;
    /// A `|->`.
    pub const IMPLICATION: i32 = 16;
    /// The name of the decisive part's mark.
    pub const SPAN: i32 = 17;
    /// The words of that mark.
    pub const SPAN_WORDS: i32 = 30;
    /// The digits of the levels.
    pub const DIGIT: i32 = 15;
    /// A line of the legend.
    pub const LEGEND: i32 = 14;
    /// A line of the origin.
    pub const ORIGIN: i32 = 10;
}

/// How many lines of text the parts of a picture have.
#[derive(Clone, Copy, Debug, PartialEq, Eq)]
pub struct Lines {
    /// The comment.
    pub comment: usize,
    /// The assertion, with the decisive part.
    pub assertion: usize,
    /// The legend.
    pub legend: usize,
    /// The origin.
    pub origin: usize,
}

/// Where everything stands.
#[derive(Clone, Debug, PartialEq, Eq)]
pub struct Layout {
    /// The columns.
    pub across: Across,
    /// The rows.
    pub down: Down,
    /// The lines of the comment.
    pub comment: Vec<String>,
    /// The lines of the assertion.
    pub assertion: Vec<String>,
    /// The lines of the decisive part.
    pub decisive: Vec<String>,
    /// The lines of the origin: a label, which is empty where the words of one go on, and words.
    pub origin: Vec<(String, String)>,
}

impl Layout {
    /// The layout of a scene.
    pub fn of(scene: &Scene) -> Layout {
        let across = Across::of(scene);
        let lines = |text: &str| match text {
            "" => Vec::new(),
            _ => heading::bounded(wrap(text, across.line_cells()), heading::MOST_LINES),
        };
        let (assertion, decisive) = (lines(&scene.assertion), lines(&scene.decisive));
        let comment = heading::comment(scene, &across);
        let origin = origin::lines(scene, &across);
        let down = Down::of(
            scene,
            &Lines {
                comment: comment.len(),
                assertion: assertion.len() + decisive.len(),
                legend: legend::lines(scene, across.width).len(),
                origin: origin.len(),
            },
        );
        Layout {
            across,
            down,
            comment,
            assertion,
            decisive,
            origin,
        }
    }
}

/// What the row of the decisive part's mark is called.
pub const SPAN_NAME: &str = "decisive";

/// The names at the left of the rows.
fn row_names(scene: &Scene) -> impl Iterator<Item = String> + '_ {
    let clocks = scene.clocks.iter().map(|clock| tick_name(&clock.name));
    let changes = scene.changes.iter().map(|change| &change.trace);
    let plain = changes.chain(&scene.signals);
    let plain = plain.map(|trace| trace.name.clone());
    let implications = scene.implications.iter().map(|row| row.name.clone());
    let span = scene.span.iter().map(|_| SPAN_NAME.to_string());
    let all = clocks.chain(plain).chain(implications).chain(span);
    all.chain(["sample".to_string()])
}

/// What the row of a clock is called.
pub fn tick_name(condition: &str) -> String {
    format!("tick @({condition})")
}

/// The width of the flag with these words.
pub fn flag_width(words: &str) -> i32 {
    room(cells(words), FLAG.size) + FLAG_SIZE.1
}

/// The height of the assertion with so many lines.
pub fn assertion_height(lines: usize) -> i32 {
    whole(lines) * ASSERTION_LINE + 2 * ASSERTION_EDGE
}

/// A count in the type of the layout. Every count of a picture is far below its greatest.
pub fn whole(count: usize) -> i32 {
    i32::try_from(count).unwrap_or(i32::MAX)
}
