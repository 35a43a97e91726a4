//! The colours, fonts and patterns of a picture.
//!
//! The colours of the levels are safe for the colour-blind (Okabe and Ito's); a pattern and a height
//! say the same without colour. All text is dark on white or white on dark.
use super::svg::Svg;
use xistomar::Level;

/// Lines and text.
pub const DARK: &str = "#1f1f1f";
/// Words of less weight.
pub const GREY: &str = "#595959";
/// Frames of what is not recorded.
pub const FRAME: &str = "#8c8c8c";
/// The lines between the columns.
pub const GRID: &str = "#e6e6e6";
/// The ground of the assertion's text and of the tail.
pub const PALE: &str = "#f6f6f6";
/// The column of the closing sample.
pub const TINT: &str = "#fff3c9";
/// The area under a signal that is high.
pub const SHADE: &str = "#dddddd";
/// The marks of the ticks.
pub const TICK: &str = "#00785a";

/// How a text looks, and which point of it is placed.
#[derive(Clone, Copy, Debug)]
pub struct Style {
    /// What the text is.
    pub class: &'static str,
    /// The generic family of its font.
    pub family: &'static str,
    /// The size of its font.
    pub size: i32,
    /// The weight of its font.
    pub weight: &'static str,
    /// The point that is placed: `start`, `middle` or `end`.
    pub anchor: &'static str,
    /// Its colour.
    pub fill: &'static str,
}

const MONO: Style = Style {
    class: "",
    family: "monospace",
    size: 12,
    weight: "normal",
    anchor: "start",
    fill: DARK,
};
const SANS: Style = Style {
    family: "sans-serif",
    ..MONO
};

/// The comment at the head of the assertion's text.
pub const COMMENT: Style = Style {
    class: "comment",
    size: 14,
    ..SANS
};
/// The program's line.
pub const LINE: Style = Style {
    class: "line",
    size: 18,
    weight: "bold",
    ..MONO
};
/// What the level means.
pub const MEANING: Style = Style {
    class: "meaning",
    size: 13,
    ..SANS
};
/// The assertion.
pub const ASSERTION: Style = Style {
    class: "assertion",
    ..MONO
};
/// The decisive part, below the assertion.
pub const DECISIVE: Style = Style {
    class: "decisive",
    ..MONO
};
/// What stands on the axis.
pub const AXIS: Style = Style {
    class: "axis",
    size: 10,
    anchor: "middle",
    fill: GREY,
    ..MONO
};
/// The time of a sample.
pub const TIME: Style = Style {
    class: "time",
    ..AXIS
};
/// The name of a row.
pub const NAME: Style = Style {
    class: "name",
    anchor: "end",
    ..MONO
};
/// The value of a signal that nobody recorded.
pub const UNKNOWN: Style = Style {
    class: "unknown",
    anchor: "middle",
    fill: GREY,
    ..MONO
};
/// The words of the decisive part's mark.
pub const SPAN_WORDS: Style = Style {
    class: "span",
    size: 11,
    ..SANS
};
/// The digit of a level in its cell.
pub const DIGIT: Style = Style {
    class: "level",
    size: 13,
    weight: "bold",
    anchor: "middle",
    ..MONO
};
/// What the level is after the record.
pub const AFTER: Style = Style {
    class: "after",
    anchor: "middle",
    ..MONO
};
/// The words on the flag.
pub const FLAG: Style = Style {
    class: "flag",
    size: 11,
    anchor: "middle",
    fill: "#ffffff",
    ..SANS
};
/// The digit of a level in the legend.
pub const KEY: Style = Style {
    class: "key",
    size: 11,
    weight: "bold",
    ..MONO
};
/// The words of the legend.
pub const LEGEND: Style = Style {
    class: "legend",
    size: 11,
    ..SANS
};

/// What the picture is made of.
pub const ORIGIN: Style = Style {
    class: "origin",
    size: 10,
    fill: GREY,
    ..MONO
};

/// The colour of a level's frame, which shows where its bar ends and the next begins.
pub fn frame(level: Level) -> &'static str {
    match level {
        Level::Strong => "#ffffff",
        _ => colour(level),
    }
}

/// The colour of a level.
fn colour(level: Level) -> &'static str {
    match level {
        Level::Broken => "#d55e00",
        Level::Weak => "#c07f00",
        Level::Neutral => "#56b4e9",
        Level::Strong => "#0072b2",
    }
}

/// What fills a level's bar: 0 is cross-hatched, 1 diagonal, 2 plain and light, 3 solid.
pub fn fill(level: Level) -> &'static str {
    match level {
        Level::Broken => "url(#kit-level-0)",
        Level::Weak => "url(#kit-level-1)",
        Level::Neutral => "#d6ecfa",
        Level::Strong => colour(level),
    }
}

/// Defines the patterns that [`fill`] names.
pub fn patterns(svg: &mut Svg) {
    svg.open("defs", &[]);
    hatch(svg, "kit-level-0", Level::Broken, "M0 0V6M0 0H6");
    hatch(svg, "kit-level-1", Level::Weak, "M0 0V6");
    svg.close();
}

/// A pattern of lines that are turned by 45 degrees.
fn hatch(svg: &mut Svg, id: &str, level: Level, lines: &str) {
    svg.open(
        "pattern",
        &[
            ("id", &id),
            ("width", &6),
            ("height", &6),
            ("patternUnits", &"userSpaceOnUse"),
            ("patternTransform", &"rotate(45)"),
        ],
    );
    let ground = "#ffffff";
    svg.leaf("rect", &[("width", &6), ("height", &6), ("fill", &ground)]);
    svg.leaf(
        "path",
        &[
            ("d", &lines),
            ("stroke", &colour(level)),
            ("stroke-width", &4),
        ],
    );
    svg.close();
}
