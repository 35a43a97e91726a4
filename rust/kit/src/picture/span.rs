//! The mark of the decisive part: a bracket from the sample at which it was asked to the one at which it
//! closed. One that is open has no right end, and is dashed after the record.
use super::axis::draw_name;
use super::layout::{baseline, Across, Layout, SPAN, SPAN_EDGE, SPAN_NAME};
use super::scene::{Scene, Span};
use super::style::{Style, DARK, SPAN_WORDS};
use super::svg::Svg;
use super::text::{cells, room};
use super::times;

/// Draws the row: its name, the bracket, and its words.
pub fn draw(svg: &mut Svg, scene: &Scene, layout: &Layout) {
    let Some(span) = &scene.span else {
        return;
    };
    let (across, top) = (&layout.across, layout.down.rows_end);
    let left = SPAN_EDGE.0
        + match span.from < scene.verdict.samples() {
            true => across.left(span.from),
            false => across.tail,
        };
    svg.open("g", &[("class", &"decisive-row")]);
    draw_name(svg, across, top + baseline::SPAN, SPAN_NAME);
    draw_bracket(svg, span, across, (left, top));
    let said = [words(scene, span, true), words(scene, span, false)];
    let fits = |words: &String| Some((place(span, across, left, words)?, words.clone()));
    if let Some(((x, anchor), words)) = said.iter().find_map(fits) {
        let style = Style {
            anchor,
            ..SPAN_WORDS
        };
        svg.words(&style, (x, top + baseline::SPAN_WORDS), &words);
    }
    svg.close();
}

/// Draws the bracket from its left end, in the row with this upper end.
fn draw_bracket(svg: &mut Svg, span: &Span, across: &Across, (left, top): (i32, i32)) {
    let (upper, middle, lower) = (top + SPAN.0, top + SPAN.1, top + SPAN.2);
    let begin = format!("M{left} {upper}V{lower}M{left} {middle}");
    let Some(closed) = span.closed else {
        let end = across.tail.max(left);
        draw_line(svg, "bracket", &format!("{begin}H{end}"), "none");
        let open = format!("M{end} {middle}H{}", across.end);
        draw_line(svg, "open-bracket", &open, "5 4");
        return;
    };
    let right = (across.left(closed) + across.column - SPAN_EDGE.0).max(left);
    let whole = format!("{begin}H{right}M{right} {upper}V{lower}");
    draw_line(svg, "bracket", &whole, "none");
}

fn draw_line(svg: &mut Svg, class: &str, line: &str, dashes: &str) {
    svg.leaf(
        "path",
        &[
            ("class", &class),
            ("d", &line),
            ("fill", &"none"),
            ("stroke", &DARK),
            ("stroke-width", &2),
            ("stroke-dasharray", &dashes),
        ],
    );
}

/// Where the words begin or end: they begin below the bracket's left end, unless the line of the flag or
/// the end of the picture is in their way; then right of that line, or else they end left of it. None where
/// they have no room.
fn place(span: &Span, across: &Across, left: i32, words: &str) -> Option<(i32, &'static str)> {
    let (width, end) = (room(cells(words), SPAN_WORDS.size), across.end);
    let pole = span.closed.map(|closed| across.left(closed));
    let before = pole.map_or(end, |pole| pole - SPAN_EDGE.1);
    let after = pole.map_or(left, |pole| pole + SPAN_EDGE.1);
    if left + width <= before {
        return Some((left, "start"));
    }
    if after + width <= end {
        return Some((after, "start"));
    }
    (before - width >= across.start).then_some((before, "end"))
}

/// `asked at 3, broken at 4`, with the times of these samples or without.
pub fn words(scene: &Scene, span: &Span, timed: bool) -> String {
    let at = |sample: usize| match times::shown(scene, sample).filter(|_| timed) {
        Some(time) => format!("{sample} ({time})"),
        None => sample.to_string(),
    };
    let asked = format!("asked at {}", at(span.from));
    match span.closed {
        Some(closed) => format!("{asked}, {} at {}", span.came, at(closed)),
        None if span.from < scene.verdict.samples() => format!("{asked}, still open"),
        None => format!("{asked}, which is still to come"),
    }
}

/// Draws the mark of the legend from its upper left corner: a small bracket, open where the part is.
pub fn draw_mark(svg: &mut Svg, open: bool, x: i32, y: i32) {
    let begin = format!("M{x} {y}v10m0 -5h11");
    let end = if open { "" } else { "m0 -5v10" };
    draw_line(svg, "bracket-key", &format!("{begin}{end}"), "none");
}
