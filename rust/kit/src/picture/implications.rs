//! The implications: a row for each `|->`, with a mark at each sample where it was asked, and a fainter one
//! where it was only reached.
use super::axis::draw_name;
use super::layout::{baseline, whole, Layout, ASKED_MARK, IMPLICATION_ROW};
use super::scene::{ImplicationRow, Scene};
use super::style::{DARK, GREY};
use super::svg::Svg;

/// Draws the rows with their names and marks.
pub fn draw(svg: &mut Svg, scene: &Scene, layout: &Layout) {
    for (row, implication) in scene.implications.iter().enumerate() {
        let top = layout.down.implications + whole(row) * IMPLICATION_ROW;
        svg.open("g", &[("class", &"implication")]);
        draw_name(
            svg,
            &layout.across,
            top + baseline::IMPLICATION,
            &implication.name,
        );
        draw_marks(svg, implication, layout, top + IMPLICATION_ROW / 2);
        svg.close();
    }
}

/// Draws the marks of a row; one at the end of the record stands in the tail.
fn draw_marks(svg: &mut Svg, row: &ImplicationRow, layout: &Layout, y: i32) {
    let across = &layout.across;
    for sample in &row.reached {
        draw_reached(svg, across.middle(*sample), y);
    }
    if row.at_end {
        draw_reached(svg, across.tail_middle(), y);
    }
    for sample in &row.matched {
        draw_asked(svg, across.middle(*sample), y);
    }
}

/// Draws the mark of a `|->` that was asked, by its middle: a disc.
pub fn draw_asked(svg: &mut Svg, x: i32, y: i32) {
    draw_circle(svg, "asked", (x, y, ASKED_MARK.0), DARK, DARK);
}

/// Draws the mark of a `|->` that was only reached, by its middle: a small ring.
pub fn draw_reached(svg: &mut Svg, x: i32, y: i32) {
    draw_circle(svg, "reached", (x, y, ASKED_MARK.1), "#ffffff", GREY);
}

fn draw_circle(svg: &mut Svg, class: &str, (x, y, r): (i32, i32, i32), fill: &str, stroke: &str) {
    svg.leaf(
        "circle",
        &[
            ("class", &class),
            ("cx", &x),
            ("cy", &y),
            ("r", &r),
            ("fill", &fill),
            ("stroke", &stroke),
        ],
    );
}
