//! The axis of the samples, the lines between their columns, and the frame of the tail.
use super::layout::{
    baseline, Across, Layout, AXIS_APART, AXIS_ROW, LONGEST_NAME, NO_SAMPLES, START,
};
use super::scene::Scene;
use super::style::{Style, AXIS, FRAME, GREY, GRID, NAME, PALE};
use super::svg::Svg;
use super::text::room;
use super::times;

/// How a row's name on the axis looks.
pub const AXIS_NAME: Style = Style { fill: GREY, ..NAME };

/// The samples from one number to the next: every sample where there is room, else every 5th.
pub fn numbered(column: i32) -> usize {
    match column >= room(2, AXIS.size) + AXIS_APART {
        true => 1,
        false => 5,
    }
}

/// Draws the ground: the tail's frame and the lines between the columns.
pub fn draw_ground(svg: &mut Svg, scene: &Scene, layout: &Layout) {
    let (across, down) = (&layout.across, &layout.down);
    let (width, height) = (across.end - across.tail, down.rows_end - down.clocks);
    if height > 0 {
        svg.leaf(
            "rect",
            &[
                ("class", &"tail"),
                ("x", &across.tail),
                ("y", &down.clocks),
                ("width", &width),
                ("height", &height),
                ("fill", &PALE),
                ("stroke", &FRAME),
                ("stroke-dasharray", &"5 4"),
            ],
        );
    }
    let upper = (down.clocks, down.rows_end);
    let lower = (down.levels, down.levels_end());
    let borders = (0..=scene.verdict.samples()).map(|sample| across.left(sample));
    let lines: String = borders
        .flat_map(|x| [upper, lower].map(|(top, end)| format!("M{x} {top}V{end}")))
        .collect();
    svg.leaf(
        "path",
        &[
            ("class", &"grid"),
            ("d", &lines),
            ("fill", &"none"),
            ("stroke", &GRID),
        ],
    );
}

/// Draws the axis, and once more above the levels where there are many rows.
pub fn draw(svg: &mut Svg, scene: &Scene, layout: &Layout) {
    for top in layout.down.axes() {
        svg.open("g", &[("class", &"axis")]);
        draw_row(
            svg,
            scene.verdict.samples(),
            &layout.across,
            top + baseline::AXIS,
        );
        times::draw(svg, scene, &layout.across, top + AXIS_ROW);
        svg.close();
    }
}

fn draw_row(svg: &mut Svg, samples: usize, across: &Across, baseline: i32) {
    svg.words(&AXIS_NAME, (across.names, baseline), "sample");
    svg.words(&AXIS, (across.start + START / 2, baseline), "start");
    for sample in (0..samples).step_by(numbered(across.column)) {
        let place = (across.middle(sample), baseline);
        svg.words(&AXIS, place, &sample.to_string());
    }
    if samples == 0 {
        let place = (across.origin + NO_SAMPLES / 2, baseline);
        svg.words(&AXIS, place, "no samples");
    }
    svg.words(&AXIS, (across.tail_middle(), baseline), "not recorded");
}

/// Draws the name of a row, shortened where it is long.
pub fn draw_name(svg: &mut Svg, across: &Across, baseline: i32, name: &str) {
    let shown = super::text::shorten(name, LONGEST_NAME);
    svg.label(&NAME, (across.names, baseline), &shown, name);
}
