//! The times of the samples, in a row below the axis.
use super::axis::{numbered, AXIS_NAME};
use super::layout::{baseline, whole, Across, Layout, AXIS_ROW, LONGEST_TIME, TIME_APART};
use super::scene::Scene;
use super::style::TIME;
use super::svg::Svg;
use super::text::{cells, room, shorten};

/// The time of a sample as it is shown, shortened where it is long.
pub fn shown(scene: &Scene, sample: usize) -> Option<String> {
    scene.time(sample).map(|time| shorten(time, LONGEST_TIME))
}

/// Draws the row from its upper end, where times are known.
pub fn draw(svg: &mut Svg, scene: &Scene, across: &Across, top: i32) {
    if !scene.timed() {
        return;
    }
    let baseline = top + baseline::TIME;
    svg.words(&AXIS_NAME, (across.names, baseline), "time");
    for (sample, middle, time) in labels(scene, across) {
        let whole = scene.time(sample).unwrap_or_default();
        svg.label(&TIME, (middle, baseline), &time, whole);
    }
}

/// The times that are shown: the sample, the middle of its time, and the time. One that is wider than its
/// column is moved to the right where the row's name is in its way.
fn labels(scene: &Scene, across: &Across) -> Vec<(usize, i32, String)> {
    let label = |sample: usize| {
        let time = shown(scene, sample)?;
        let least = across.start + width(&time) / 2;
        Some((sample, across.middle(sample).max(least), time))
    };
    let samples = (0..scene.verdict.samples()).step_by(step(scene, across));
    samples.filter_map(label).collect()
}

/// The samples from one time to the next: so many that the widest time has room, even next to one that is
/// moved, and that each stands below a number of the axis.
fn step(scene: &Scene, across: &Across) -> usize {
    let times = (0..scene.verdict.samples()).filter_map(|sample| shown(scene, sample));
    let widest = times.map(|time| width(&time)).max().unwrap_or_default();
    let moved = (across.start + widest / 2 - across.middle(0)).max(0);
    let needed = widest + moved + TIME_APART;
    let numbered = numbered(across.column);
    let mut steps = (numbered..).step_by(numbered);
    let fits = |step: &usize| whole(*step).saturating_mul(across.column) >= needed;
    steps.find(fits).unwrap_or(numbered)
}

/// The upper ends of the rows of times, where one of these is in the way of a line at x.
pub fn in_the_way(scene: &Scene, layout: &Layout, x: i32) -> Vec<i32> {
    let labels = labels(scene, &layout.across);
    let near = |time: &str| width(time) / 2 + 1;
    let crossed = labels
        .iter()
        .any(|(_, middle, time)| (middle - x).abs() <= near(time));
    let rows = layout.down.axes().map(|axis| axis + AXIS_ROW);
    rows.filter(|_| crossed).collect()
}

fn width(time: &str) -> i32 {
    room(cells(time), TIME.size)
}
