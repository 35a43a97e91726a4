//! The ticks: a row for each clock, with a mark and a line through the waveforms at each tick.
use super::axis::draw_name;
use super::layout::{baseline, tick_name, whole, Layout, CLOCK_ROW, TICK_MARK};
use super::scene::{Scene, Trace};
use super::style::TICK;
use super::svg::Svg;

/// Draws a line through the waveforms at each sample where a clock ticks, from its mark down. The
/// lines lie over the waveforms.
pub fn draw_lines(svg: &mut Svg, scene: &Scene, layout: &Layout) {
    let ticks = |clock: &Trace, sample: usize| clock.values.get(sample) == Some(&true);
    let first = |sample| scene.clocks.iter().position(|clock| ticks(clock, sample));
    let line = |sample| {
        let (_, height, edge) = TICK_MARK;
        let top = row_top(layout, first(sample)?) + edge + height;
        let (x, end) = (layout.across.middle(sample), layout.down.rows_end);
        Some(format!("M{x} {top}V{end}"))
    };
    let lines: String = (0..scene.verdict.samples()).filter_map(line).collect();
    if !lines.is_empty() {
        svg.leaf(
            "path",
            &[
                ("class", &"tick-lines"),
                ("d", &lines),
                ("fill", &"none"),
                ("stroke", &TICK),
                ("stroke-dasharray", &"3 3"),
            ],
        );
    }
}

/// Draws the rows with their names and marks.
pub fn draw(svg: &mut Svg, scene: &Scene, layout: &Layout) {
    for (row, clock) in scene.clocks.iter().enumerate() {
        let top = row_top(layout, row);
        svg.open("g", &[("class", &"clock")]);
        draw_name(
            svg,
            &layout.across,
            top + baseline::CLOCK,
            &tick_name(&clock.name),
        );
        for (sample, ticks) in clock.values.iter().enumerate() {
            if *ticks {
                draw_mark(svg, layout.across.middle(sample), top + TICK_MARK.2);
            }
        }
        svg.close();
    }
}

/// Draws a mark: a triangle that points down, from the middle of its upper side.
pub fn draw_mark(svg: &mut Svg, x: i32, y: i32) {
    let (half, height, _) = TICK_MARK;
    let corners = format!("M{} {y}H{}L{x} {}Z", x - half, x + half, y + height);
    svg.leaf(
        "path",
        &[("class", &"tick"), ("d", &corners), ("fill", &TICK)],
    );
}

fn row_top(layout: &Layout, row: usize) -> i32 {
    layout.down.clocks + whole(row) * CLOCK_ROW
}
