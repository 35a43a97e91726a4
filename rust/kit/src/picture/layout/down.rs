//! Where the rows stand, from top to bottom.
use super::*;

/// Where the rows stand: the upper end of each part.
#[derive(Clone, Debug, PartialEq, Eq)]
pub struct Down {
    /// The baseline of the program's line.
    pub line: i32,
    /// The assertion's lines.
    pub assertion: i32,
    /// The flag, where the level is closed.
    pub flag: i32,
    /// The axis.
    pub axis: i32,
    /// The clocks.
    pub clocks: i32,
    /// What rises and falls.
    pub changes: i32,
    /// The signals.
    pub signals: i32,
    /// The implications.
    pub implications: i32,
    /// The lower end of all these rows, where the mark of the decisive part begins.
    pub rows_end: i32,
    /// The axis once more, where there are many rows.
    pub second_axis: Option<i32>,
    /// The bars of the levels.
    pub levels: i32,
    /// The lower end of the bars, where their digits begin.
    pub digits: i32,
    /// The legend.
    pub legend: i32,
    /// The origin.
    pub origin: i32,
    /// The height of the picture.
    pub height: i32,
}

impl Down {
    /// The rows of a scene whose parts have so many lines.
    pub fn of(scene: &Scene, lines: &Lines) -> Down {
        let line = FIRST_BASELINE + below(lines.comment, COMMENT_LINE, COMMENT_APART);
        let assertion = heading::end(scene, line) + BREAK;
        let flag = assertion + assertion_height(lines.assertion) + BREAK;
        let axis = flag + below(scene.verdict.closed().iter().count(), FLAG_ROW, 0);
        let clocks = axis + axis_height(scene);
        let changes = clocks + below(scene.clocks.len(), CLOCK_ROW, 0);
        let signals = changes + below(scene.changes.len(), CHANGE_ROW, 0);
        let implications = signals + below(scene.signals.len(), SIGNAL_ROW, 0);
        let rows_end = implications + below(scene.implications.len(), IMPLICATION_ROW, 0);
        let span_end = rows_end + below(scene.span.iter().count(), SPAN_ROW, 0);
        let second_axis = many_rows(scene).then_some(span_end);
        let levels = span_end + second_axis.map_or(BREAK, |_| axis_height(scene));
        let digits = levels + 4 * STEP;
        let legend = digits + DIGIT_ROW + BREAK;
        let legend_end = legend + below(lines.legend, LEGEND_LINE, 0);
        let height = legend_end + below(lines.origin, ORIGIN_LINE, ORIGIN_APART) + MARGIN;
        Down {
            line,
            assertion,
            flag,
            axis,
            clocks,
            changes,
            signals,
            implications,
            rows_end,
            second_axis,
            levels,
            digits,
            legend,
            origin: legend_end + ORIGIN_APART,
            height,
        }
    }

    /// The lower end of the levels.
    pub fn levels_end(&self) -> i32 {
        self.digits + DIGIT_ROW
    }

    /// The axis, and the one above the levels where there is one.
    pub fn axes(&self) -> impl Iterator<Item = i32> {
        [Some(self.axis), self.second_axis].into_iter().flatten()
    }
}

/// The height of so many lines or rows with a space before or after them; nothing where there are none.
fn below(count: usize, each: i32, apart: i32) -> i32 {
    match count {
        0 => 0,
        _ => whole(count) * each + apart,
    }
}

/// The height of the axis, with the times where they are known.
fn axis_height(scene: &Scene) -> i32 {
    AXIS_ROW + if scene.timed() { TIME_ROW } else { 0 }
}

/// Whether there are so many rows that the axis is out of sight at the levels.
fn many_rows(scene: &Scene) -> bool {
    let rows = scene.clocks.len() + scene.changes.len();
    rows + scene.signals.len() + scene.implications.len() > MANY_ROWS
}
