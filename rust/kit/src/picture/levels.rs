//! The levels: a bar and a digit for the start and for each sample, and what comes after.
use super::layout::{baseline, Layout, HEAD, STEP};
use super::scene::Scene;
use super::style::{fill, frame, AFTER, DIGIT, FRAME, NAME, PALE};
use super::svg::Svg;
use xistomar::Level;

/// Draws the levels.
pub fn draw(svg: &mut Svg, scene: &Scene, layout: &Layout) {
    let (across, down) = (&layout.across, &layout.down);
    let baseline = digit_baseline(layout);
    svg.open("g", &[("class", &"levels")]);
    svg.words(&NAME, (across.names, baseline), "level");
    for (samples, level) in scene.verdict.levels.iter().enumerate() {
        let (left, width) = across.after(samples);
        draw_bar(svg, *level, (left, down.digits), width);
        let digit = level.number().to_string();
        svg.words(&DIGIT, (left + width / 2, baseline), &digit);
    }
    match scene.verdict.closed() {
        Some(_) => draw_arrow(svg, scene, layout),
        None => draw_open(svg, scene, layout),
    }
    svg.close();
}

/// How high the bar of a level is.
pub fn height(level: Level) -> i32 {
    STEP * (i32::from(level.number()) + 1)
}

/// Draws the bar of a level from its lower left corner.
fn draw_bar(svg: &mut Svg, level: Level, (left, base): (i32, i32), width: i32) {
    draw_swatch(
        svg,
        level,
        (left, base - height(level)),
        (width, height(level)),
    );
}

/// Draws a rectangle that is filled as a level is.
pub fn draw_swatch(svg: &mut Svg, level: Level, (x, y): (i32, i32), (width, height): (i32, i32)) {
    svg.leaf(
        "rect",
        &[
            ("class", &format!("bar-{}", level.number())),
            ("x", &x),
            ("y", &y),
            ("width", &width),
            ("height", &height),
            ("fill", &fill(level)),
            ("stroke", &frame(level)),
        ],
    );
}

/// Draws the bar of a closed level, which goes on for ever, as an arrow.
fn draw_arrow(svg: &mut Svg, scene: &Scene, layout: &Layout) {
    let (level, base) = (scene.verdict.judgement.level, layout.down.digits);
    let (top, middle) = (base - height(level), base - height(level) / 2);
    let (left, tip) = (last_end(scene, layout), layout.across.end);
    let neck = tip - HEAD;
    let arrow = format!("M{left} {top}H{neck}L{tip} {middle}L{neck} {base}H{left}Z");
    svg.leaf(
        "path",
        &[
            ("class", &"stays"),
            ("d", &arrow),
            ("fill", &fill(level)),
            ("stroke", &frame(level)),
        ],
    );
    draw_after(svg, layout, &format!("stays {}", level.number()));
}

/// Draws an empty frame where the level is still open.
fn draw_open(svg: &mut Svg, scene: &Scene, layout: &Layout) {
    let (left, down) = (last_end(scene, layout), &layout.down);
    svg.leaf(
        "rect",
        &[
            ("class", &"open"),
            ("x", &left),
            ("y", &down.levels),
            ("width", &(layout.across.end - left)),
            ("height", &(down.digits - down.levels)),
            ("fill", &PALE),
            ("stroke", &FRAME),
            ("stroke-dasharray", &"5 4"),
        ],
    );
    draw_after(svg, layout, "open");
}

/// The right border of the last bar.
fn last_end(scene: &Scene, layout: &Layout) -> i32 {
    let (left, width) = layout.across.after(scene.verdict.samples());
    left + width
}

/// Writes what the level is after the record.
fn draw_after(svg: &mut Svg, layout: &Layout, words: &str) {
    let place = (layout.across.tail_middle(), digit_baseline(layout));
    svg.words(&AFTER, place, words);
}

/// The baseline of the digits.
fn digit_baseline(layout: &Layout) -> i32 {
    layout.down.digits + baseline::DIGIT
}
