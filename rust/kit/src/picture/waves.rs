//! The signals as waveforms, which end open.
use super::axis::draw_name;
use super::layout::{baseline, whole, Across, Layout, SIGNAL, SIGNAL_ROW};
use super::scene::{Scene, Trace};
use super::style::{DARK, GREY, SHADE, UNKNOWN};
use super::svg::Svg;

/// A stretch of equal samples: the value, the left and the right border.
type Stretch = (bool, i32, i32);

/// Draws all waveforms.
pub fn draw(svg: &mut Svg, scene: &Scene, layout: &Layout) {
    for (row, signal) in scene.signals.iter().enumerate() {
        let top = layout.down.signals + whole(row) * SIGNAL_ROW;
        svg.open("g", &[("class", &"signal")]);
        draw_name(svg, &layout.across, top + baseline::SIGNAL, &signal.name);
        draw_wave(svg, signal, &layout.across, top);
        draw_end(svg, &layout.across, top);
        svg.close();
    }
}

/// Draws the shade and the line of a waveform.
fn draw_wave(svg: &mut Svg, signal: &Trace, across: &Across, top: i32) {
    let stretches = stretches(&signal.values, across);
    let (high, low) = (top + SIGNAL.0, top + SIGNAL.1);
    let shade: String = stretches
        .iter()
        .filter(|(value, ..)| *value)
        .map(|(_, left, right)| format!("M{left} {low}V{high}H{right}V{low}Z"))
        .collect();
    if !shade.is_empty() {
        svg.leaf(
            "path",
            &[
                ("class", &"shade"),
                ("d", &shade),
                ("fill", &SHADE),
                ("fill-opacity", &0.7),
            ],
        );
    }
    let line = line(&stretches, high, low);
    if !line.is_empty() {
        svg.leaf(
            "path",
            &[
                ("class", &"wave"),
                ("d", &line),
                ("fill", &"none"),
                ("stroke", &DARK),
                ("stroke-width", &2),
            ],
        );
    }
}

/// The stretches of equal samples.
fn stretches(values: &[bool], across: &Across) -> Vec<Stretch> {
    let mut stretches: Vec<Stretch> = Vec::new();
    for (sample, value) in values.iter().enumerate() {
        let (left, right) = (across.left(sample), across.left(sample + 1));
        match stretches.last_mut() {
            Some((last, _, end)) if last == value => *end = right,
            _ => stretches.push((*value, left, right)),
        }
    }
    stretches
}

/// The line of a waveform: along each stretch, and up or down between two.
fn line(stretches: &[Stretch], high: i32, low: i32) -> String {
    let height = |value: bool| if value { high } else { low };
    let mut line = String::new();
    for (value, left, right) in stretches {
        let y = height(*value);
        line.push_str(&match line.is_empty() {
            true => format!("M{left} {y}H{right}"),
            false => format!("V{y}H{right}"),
        });
    }
    line
}

/// Draws the tail of a waveform: high or low, nobody knows.
fn draw_end(svg: &mut Svg, across: &Across, top: i32) {
    let (left, middle, right) = (across.tail, across.tail_middle(), across.end);
    let rails = [top + SIGNAL.0, top + SIGNAL.1].map(|y| format!("M{left} {y}H{right}"));
    svg.leaf(
        "path",
        &[
            ("class", &"open-wave"),
            ("d", &rails.concat()),
            ("fill", &"none"),
            ("stroke", &GREY),
            ("stroke-dasharray", &"1 4"),
        ],
    );
    svg.words(&UNKNOWN, (middle, top + baseline::SIGNAL), "?");
}
