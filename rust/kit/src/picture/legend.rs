//! The legend: the levels in words, and the marks.
use super::layout::{baseline, Layout, LEGEND_APART, LEGEND_LINE, MARGIN, SWATCH};
use super::scene::Scene;
use super::style::{KEY, LEGEND};
use super::svg::Svg;
use super::text::{cells, room};
use super::{closing, implications, levels, span, ticks};
use xistomar::Level;

/// An entry of the legend.
#[derive(Clone, Copy, Debug, PartialEq, Eq)]
pub enum Entry {
    /// A level, with its pattern.
    Level(Level),
    /// The mark of a tick.
    Tick,
    /// The closing mark.
    Closing,
    /// The mark of a sample at which the right side of an implication was asked.
    Asked,
    /// The mark of one at which the implication was only reached.
    Reached,
    /// The mark of the decisive part.
    Decisive {
        /// Whether it is open.
        open: bool,
    },
}

/// The entries of the upper line.
const UPPER: [Entry; 2] = [Entry::Level(Level::Strong), Entry::Level(Level::Neutral)];
/// The entries of the lower line.
const LOWER: [Entry; 4] = [
    Entry::Level(Level::Weak),
    Entry::Level(Level::Broken),
    Entry::Tick,
    Entry::Closing,
];

/// The entries for the rows of `|->`.
const IMPLICATIONS: [Entry; 2] = [Entry::Asked, Entry::Reached];

impl Entry {
    fn words(self) -> &'static str {
        match self {
            Entry::Level(level) => level.meaning(),
            Entry::Tick => "clock tick",
            Entry::Closing => "level closed",
            Entry::Asked => "right side asked",
            Entry::Reached => "implication only reached",
            Entry::Decisive { open: false } => "decisive part, asked to closed",
            Entry::Decisive { open: true } => "decisive part, still open",
        }
    }

    /// The room of what stands before the words.
    fn indent(self) -> i32 {
        match self {
            Entry::Level(_) => SWATCH.0 + 18,
            Entry::Decisive { .. } => 18,
            Entry::Tick | Entry::Closing | Entry::Asked | Entry::Reached => 16,
        }
    }

    fn width(self) -> i32 {
        self.indent() + room(cells(self.words()), LEGEND.size)
    }
}

/// The lines of the legend in a picture of this width: the levels and marks in one where there is room, else
/// in two, and those of the rows of `|->` and of the decisive part's in one of their own.
pub fn lines(scene: &Scene, width: i32) -> Vec<Vec<Entry>> {
    let all = [&UPPER[..], &LOWER[..]].concat();
    let taken: i32 = all.iter().map(|entry| entry.width() + LEGEND_APART).sum();
    let mut lines = match taken - LEGEND_APART <= width - 2 * MARGIN {
        true => vec![all],
        false => vec![UPPER.to_vec(), LOWER.to_vec()],
    };
    lines.extend(Some(last(scene)).filter(|last| !last.is_empty()));
    lines
}

/// The entries of the last line, for the rows that are there.
fn last(scene: &Scene) -> Vec<Entry> {
    let implications = IMPLICATIONS
        .into_iter()
        .filter(|_| !scene.implications.is_empty());
    let decisive = scene.span.iter().map(|span| Entry::Decisive {
        open: span.closed.is_none(),
    });
    implications.chain(decisive).collect()
}

/// Draws the legend.
pub fn draw(svg: &mut Svg, scene: &Scene, layout: &Layout) {
    svg.open("g", &[("class", &"legend")]);
    let mut top = layout.down.legend;
    for line in lines(scene, layout.across.width) {
        let mut left = MARGIN;
        for entry in line {
            draw_entry(svg, entry, left, top);
            left += entry.width() + LEGEND_APART;
        }
        top += LEGEND_LINE;
    }
    svg.close();
}

fn draw_entry(svg: &mut Svg, entry: Entry, left: i32, top: i32) {
    let baseline = top + baseline::LEGEND;
    match entry {
        Entry::Level(level) => {
            levels::draw_swatch(svg, level, (left, top + 4), SWATCH);
            let digit = level.number().to_string();
            svg.words(&KEY, (left + SWATCH.0 + 6, baseline), &digit);
        }
        Entry::Tick => ticks::draw_mark(svg, left + 5, top + 5),
        Entry::Closing => closing::draw_mark(svg, left, top + 3),
        Entry::Asked => implications::draw_asked(svg, left + 5, top + 10),
        Entry::Reached => implications::draw_reached(svg, left + 5, top + 10),
        Entry::Decisive { open } => span::draw_mark(svg, open, left + 1, top + 5),
    }
    svg.words(&LEGEND, (left + entry.indent(), baseline), entry.words());
}
