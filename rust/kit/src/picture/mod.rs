//! The verdict as a picture: an SVG with the signals, the clocks' ticks, what rises and falls, where each
//! `|->` was asked, over which samples the decisive part was, and the level after each sample.
mod axis;
mod changes;
mod closing;
mod description;
mod heading;
mod implications;
mod layout;
mod legend;
mod levels;
mod origin;
mod scene;
mod signed;
mod span;
mod style;
mod svg;
mod text;
mod ticks;
mod times;
mod waves;

use description::{description, title};
use layout::Layout;
pub use scene::Scene;
pub use signed::is_signed;
use svg::Svg;

/// The SVG of a scene. The same scene always gives the same bytes.
pub fn draw(scene: &Scene) -> String {
    let layout = Layout::of(scene);
    let mut svg = Svg::default();
    begin(&mut svg, scene, &layout);
    closing::draw_ground(&mut svg, scene, &layout);
    axis::draw_ground(&mut svg, scene, &layout);
    heading::draw(&mut svg, scene, &layout);
    axis::draw(&mut svg, scene, &layout);
    ticks::draw(&mut svg, scene, &layout);
    changes::draw(&mut svg, scene, &layout);
    waves::draw(&mut svg, scene, &layout);
    ticks::draw_lines(&mut svg, scene, &layout);
    implications::draw(&mut svg, scene, &layout);
    span::draw(&mut svg, scene, &layout);
    levels::draw(&mut svg, scene, &layout);
    closing::draw(&mut svg, scene, &layout);
    legend::draw(&mut svg, scene, &layout);
    origin::draw(&mut svg, scene, &layout);
    signed::sign(&svg.finish())
}

/// Begins the picture: its size, its words for who hears it, its white ground and its patterns.
fn begin(svg: &mut Svg, scene: &Scene, layout: &Layout) {
    let (width, height) = (layout.across.width, layout.down.height);
    svg.open(
        "svg",
        &[
            ("xmlns", &"http://www.w3.org/2000/svg"),
            ("width", &width),
            ("height", &height),
            ("viewBox", &format!("0 0 {width} {height}")),
            ("role", &"img"),
            ("aria-labelledby", &"kit-title kit-words"),
        ],
    );
    svg.holding("title", &[("id", &"kit-title")], &title(scene, layout));
    svg.holding("desc", &[("id", &"kit-words")], &description(scene, layout));
    style::patterns(svg);
    let size = [("width", &width as _), ("height", &height as _)];
    svg.leaf("rect", &[&size[..], &[("fill", &"#ffffff" as _)]].concat());
}

#[cfg(test)]
mod tests;
