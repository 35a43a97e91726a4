//! The origin: what the picture is made of, a label and words each, at its lower end.
use super::heading::{bounded, MOST_LINES};
use super::layout::{baseline, Across, Layout, LONGEST_LABEL, MARGIN, ORIGIN_LINE};
use super::scene::Scene;
use super::style::ORIGIN;
use super::svg::Svg;
use super::text::{cells, room, shorten, wrap};

/// The lines: a label, which is empty where the words of one go on, and words.
pub fn lines(scene: &Scene, across: &Across) -> Vec<(String, String)> {
    let wide = across.width - MARGIN - words_left(scene);
    let most = usize::try_from(wide * 10 / (ORIGIN.size * 6)).unwrap_or_default();
    let entry = |(label, words): &(String, String)| {
        let labels =
            std::iter::once(shorten(label, LONGEST_LABEL)).chain(std::iter::repeat(String::new()));
        let lines = bounded(wrap(words, most), MOST_LINES);
        labels.zip(lines).collect::<Vec<_>>()
    };
    scene.origin.iter().flat_map(entry).collect()
}

/// Draws the lines.
pub fn draw(svg: &mut Svg, scene: &Scene, layout: &Layout) {
    if layout.origin.is_empty() {
        return;
    }
    svg.open("g", &[("class", &"origin")]);
    for (number, (label, words)) in (0..).zip(&layout.origin) {
        let y = layout.down.origin + number * ORIGIN_LINE + baseline::ORIGIN;
        if !label.is_empty() {
            svg.words(&ORIGIN, (MARGIN, y), label);
        }
        svg.words(&ORIGIN, (words_left(scene), y), words);
    }
    svg.close();
}

/// Where the words begin: right of the longest label, and two cells.
fn words_left(scene: &Scene) -> i32 {
    let labels = scene
        .origin
        .iter()
        .map(|(label, _)| cells(&shorten(label, LONGEST_LABEL)));
    MARGIN + room(labels.max().unwrap_or_default() + 2, ORIGIN.size)
}
