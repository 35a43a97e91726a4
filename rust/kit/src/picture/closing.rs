//! The closing mark: the column after which the level is closed, a line at its left border and a flag.
use super::layout::{baseline, flag_width, Layout, FLAG_SIZE, TIME_ROW};
use super::scene::Scene;
use super::style::{DARK, FLAG, TINT};
use super::svg::Svg;
use super::times;

/// Tints the column, which lies below all else.
pub fn draw_ground(svg: &mut Svg, scene: &Scene, layout: &Layout) {
    let Some(closed) = scene.verdict.closed() else {
        return;
    };
    let (x, width) = (layout.across.left(closed), layout.across.column);
    let top = layout.down.axis;
    svg.leaf(
        "rect",
        &[
            ("class", &"closing-column"),
            ("x", &x),
            ("y", &top),
            ("width", &width),
            ("height", &(layout.down.levels_end() - top)),
            ("fill", &TINT),
        ],
    );
}

/// Draws the line and the flag.
pub fn draw(svg: &mut Svg, scene: &Scene, layout: &Layout) {
    let Some(closed) = scene.verdict.closed() else {
        return;
    };
    let words = words(scene, closed);
    let x = layout.across.left(closed);
    let y = layout.down.flag;
    svg.open("g", &[("class", &"closing")]);
    let times = times::in_the_way(scene, layout, x);
    draw_pole(svg, x, (y, layout.down.levels_end()), &times);
    let (width, right) = (flag_width(&words), layout.across.end);
    let left = if x + width <= right { x } else { x - width };
    svg.leaf(
        "rect",
        &[
            ("x", &left),
            ("y", &y),
            ("width", &width),
            ("height", &FLAG_SIZE.0),
            ("fill", &DARK),
        ],
    );
    svg.words(&FLAG, (left + width / 2, y + baseline::FLAG), &words);
    svg.close();
}

/// Draws the line that the flag hangs at, with a gap where a row of times is in its way.
fn draw_pole(svg: &mut Svg, x: i32, (top, end): (i32, i32), times: &[i32]) {
    let gap = |row: &i32| format!("V{row}M{x} {}", row + TIME_ROW);
    let gaps: String = times.iter().map(gap).collect();
    svg.leaf(
        "path",
        &[
            ("class", &"pole"),
            ("d", &format!("M{x} {top}{gaps}V{end}")),
            ("stroke", &DARK),
            ("stroke-width", &2),
        ],
    );
}

/// Draws the mark of the legend: a small line with a flag, from its upper left corner.
pub fn draw_mark(svg: &mut Svg, x: i32, y: i32) {
    let flag = format!("M{x} {y}h11v7h-9v7h-2z");
    svg.leaf("path", &[("d", &flag), ("fill", &DARK)]);
}

/// What the flag says: the sample at which the level closed, and its time where it is known.
pub fn words(scene: &Scene, closed: usize) -> String {
    let time = times::shown(scene, closed).map_or(String::new(), |time| format!(", {time}"));
    format!("closed at sample {closed}{time}")
}
