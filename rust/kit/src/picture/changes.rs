//! What rises and falls: a row for each `rose(a)` and `fell(a)`, with an arrow at each sample where it
//! is so.
use super::axis::draw_name;
use super::layout::{baseline, whole, Layout, ARROW, CHANGE_ROW};
use super::scene::Scene;
use super::style::DARK;
use super::svg::Svg;

/// Draws the rows with their names and arrows.
pub fn draw(svg: &mut Svg, scene: &Scene, layout: &Layout) {
    for (row, change) in scene.changes.iter().enumerate() {
        let top = layout.down.changes + whole(row) * CHANGE_ROW;
        svg.open("g", &[("class", &"change")]);
        draw_name(
            svg,
            &layout.across,
            top + baseline::CHANGE,
            &change.trace.name,
        );
        for (sample, so) in change.trace.values.iter().enumerate() {
            if *so {
                draw_arrow(svg, change.rises, layout.across.middle(sample), top);
            }
        }
        svg.close();
    }
}

/// Draws an arrow in the middle of a column: up where the signal rises, down where it falls.
fn draw_arrow(svg: &mut Svg, rises: bool, x: i32, top: i32) {
    let (edge, height, head) = ARROW;
    let (tip, neck, foot) = match rises {
        true => (top + edge, top + edge + head, top + edge + height),
        false => (top + edge + height, top + edge + height - head, top + edge),
    };
    let class = if rises { "rise" } else { "fall" };
    let shape = format!(
        "M{x} {tip}L{} {neck}H{}V{foot}H{}V{neck}H{}Z",
        x + head,
        x + 1,
        x - 1,
        x - head
    );
    svg.leaf("path", &[("class", &class), ("d", &shape), ("fill", &DARK)]);
}
