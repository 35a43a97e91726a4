//! The heading: the comment of the assertion's text, the program's line, what the level means, the
//! assertion, and its decisive part.
use super::layout::{
    assertion_height, baseline, Across, Layout, ASSERTION_EDGE, ASSERTION_LINE, COMMENT_LINE,
    HEADING_LINE, MARGIN,
};
use super::scene::Scene;
use super::style::{ASSERTION, COMMENT, DECISIVE, LINE, MEANING, PALE};
use super::svg::Svg;
use super::text::wrap;
use crate::words;

/// The most lines of an assertion that are shown. Booleans that are used many times can make a text
/// that is longer than any picture.
pub const MOST_LINES: usize = 200;
/// The most lines of a comment that are shown: a title is short, and the text has the rest.
const MOST_COMMENT: usize = 6;

/// The lines of the comment that are shown.
pub fn comment(scene: &Scene, across: &Across) -> Vec<String> {
    let comment = scene.comment.iter().filter(|comment| !comment.is_empty());
    let lines = comment.map(|comment| wrap(comment, across.comment_cells()));
    bounded(lines.flatten().collect(), MOST_COMMENT)
}

/// The lines of words below the program's line.
fn meaning(scene: &Scene) -> Vec<String> {
    let judgement = scene.verdict.judgement;
    let mut words = vec![judgement.level.meaning().to_string()];
    match (judgement.tested, scene.asked) {
        (true, Some(false)) => {
            words.push(format!("tested, but not every {} was asked", scene.signs))
        }
        (true, _) => {}
        (false, _) => words.push("not tested: no strong and no weak was reached".to_string()),
    }
    words
}

/// The lower end of all lines but the assertion's, by the baseline of the program's.
pub fn end(scene: &Scene, line: i32) -> i32 {
    baselines(line)
        .take(meaning(scene).len())
        .last()
        .unwrap_or(line)
}

/// The baselines of the words below the program's line.
fn baselines(line: i32) -> impl Iterator<Item = i32> {
    (1..).map(move |below| line + below * HEADING_LINE)
}

/// At most so many of some lines, with a line that says how many are not shown.
pub fn bounded(mut lines: Vec<String>, most: usize) -> Vec<String> {
    let left_out = lines.len().saturating_sub(most);
    if left_out > 0 {
        lines.truncate(most);
        let left_out = words::count(left_out, "more line");
        lines.push(format!("… and {left_out}"));
    }
    lines
}

/// Draws the heading.
pub fn draw(svg: &mut Svg, scene: &Scene, layout: &Layout) {
    for (number, line) in (0..).zip(&layout.comment) {
        let y = MARGIN + number * COMMENT_LINE + baseline::COMMENT;
        svg.words(&COMMENT, (MARGIN, y), line);
    }
    let line = scene.verdict.judgement.to_string();
    svg.words(&LINE, (MARGIN, layout.down.line), &line);
    draw_meaning(svg, scene, layout);
    draw_assertion(svg, layout);
}

fn draw_meaning(svg: &mut Svg, scene: &Scene, layout: &Layout) {
    let lines = meaning(scene).into_iter();
    for (words, y) in lines.zip(baselines(layout.down.line)) {
        svg.words(&MEANING, (MARGIN, y), &words);
    }
}

fn draw_assertion(svg: &mut Svg, layout: &Layout) {
    let top = layout.down.assertion;
    let (assertion, decisive) = (&layout.assertion, &layout.decisive);
    svg.leaf(
        "rect",
        &[
            ("x", &MARGIN),
            ("y", &top),
            ("width", &(layout.across.width - 2 * MARGIN)),
            (
                "height",
                &assertion_height(assertion.len() + decisive.len()),
            ),
            ("rx", &4),
            ("fill", &PALE),
        ],
    );
    let (x, first) = (MARGIN + ASSERTION_EDGE, top + ASSERTION_EDGE);
    let lines = assertion.iter().map(|line| (&ASSERTION, line));
    let lines = lines.chain(decisive.iter().map(|line| (&DECISIVE, line)));
    for (number, (style, line)) in (0..).zip(lines) {
        let y = first + number * ASSERTION_LINE + baseline::ASSERTION;
        svg.words(style, (x, y), line);
    }
}
