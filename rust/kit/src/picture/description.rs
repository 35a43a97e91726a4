//! The words for who hears the picture.
use super::layout::Layout;
use super::scene::Scene;
use super::{closing, span};

/// What the picture is: the verdict, and the comment as it is shown.
pub fn title(scene: &Scene, layout: &Layout) -> String {
    let judgement = scene.verdict.judgement;
    let verdict = format!("{judgement}: {}", judgement.level.meaning());
    match layout.comment.join(" ") {
        comment if comment.is_empty() => verdict,
        comment => format!("{verdict}. {comment}"),
    }
}

/// What the picture shows.
pub fn description(scene: &Scene, layout: &Layout) -> String {
    let levels = scene.verdict.levels.iter();
    let levels: Vec<String> = levels.map(|level| level.number().to_string()).collect();
    let closed = scene.verdict.closed();
    let closed = closed.map_or("still open".to_string(), |at| closing::words(scene, at));
    format!(
        "Assertion: {}. {}{}Samples: {}. {}Level at the start and after each sample: {}; {closed}.{}{}",
        layout.assertion.join(" "),
        scene.tested.replace('\n', " "),
        scene.decisive.replace('\n', " "),
        scene.verdict.samples(),
        times(scene),
        levels.join(" "),
        mark(scene),
        origin(scene),
    )
}

/// The time of every sample, where any is known.
fn times(scene: &Scene) -> String {
    let time = |sample| scene.time(sample).unwrap_or("not known");
    let times: Vec<&str> = (0..scene.verdict.samples()).map(time).collect();
    match scene.timed() {
        true => format!("Times of the samples: {}. ", times.join(", ")),
        false => String::new(),
    }
}

/// What the mark of the decisive part says.
fn mark(scene: &Scene) -> String {
    let words = |span| {
        format!(
            " Mark of the decisive part: {}.",
            span::words(scene, span, true)
        )
    };
    scene.span.as_ref().map(words).unwrap_or_default()
}

/// What the picture is made of.
fn origin(scene: &Scene) -> String {
    let entry = |(label, words): &(String, String)| format!(" {label}: {words}.");
    scene.origin.iter().map(entry).collect()
}
