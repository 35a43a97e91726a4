//! Tests of the pictures, read back as elements.
mod bands;
mod changes;
mod comment;
mod elements;
mod implications;
mod made;
mod origin;
mod span;
mod times;
mod words;

use super::{draw, Scene};
use crate::engine::{Engine, Engines};
use crate::names::Names;
use crate::testing::{table, table_2, table_3};
use elements::{elements, Element};

/// always (ack |-> strong((!drop)[*1:$] ##0 strobe))
const FLUSH: &[u8] = include_bytes!("../../../../../examples/flush.svt");
/// @(c) strong(a ##1 b)
const P10: &[u8] = include_bytes!("../../../../../examples/p10.svt");

/// strong(a)
fn strong_a() -> Vec<u8> {
    table(&[[1, 0, 0], [16, 0, 0], [32, 1, 0]])
}

/// The scene of a table and samples, by both engines.
fn scene_of(table: &[u8], names: &Names, samples: &[u64]) -> Scene {
    let mut engines = Engines::of(Engine::Both, table).unwrap();
    Scene::of(&mut engines, table, names, samples).unwrap()
}

/// The scene of a table whose signals 0, 1, .. have these names. Its assertion takes one line, its
/// decisive part none and has no mark, its clocks are called c, d, .. and its implications p, q, .. so that the layout does
/// not depend on the notation.
fn scene(table: &[u8], list: &[&str], samples: &[u64]) -> Scene {
    let mut scene = scene_of(table, &Names::of(list), samples);
    scene.assertion = "the assertion".to_string();
    scene.decisive = String::new();
    scene.span = None;
    for (clock, name) in scene.clocks.iter_mut().zip('c'..) {
        clock.name = name.to_string();
    }
    for (row, name) in scene.implications.iter_mut().zip('p'..) {
        row.name = name.to_string();
    }
    scene
}

/// The flush of the examples, with names.
fn flush(samples: &[u64]) -> Scene {
    scene(FLUSH, &["ack", "drop", "strobe"], samples)
}

/// The picture's elements.
fn drawn(scene: &Scene) -> Vec<Element> {
    elements(&draw(scene)).unwrap()
}

/// The elements of a class.
fn of_class<'a>(elements: &'a [Element], class: &str) -> Vec<&'a Element> {
    let found = elements
        .iter()
        .filter(|element| element.get("class") == class);
    found.collect()
}

/// What the texts of a class say.
fn texts(elements: &[Element], class: &str) -> Vec<String> {
    let found = of_class(elements, class).into_iter();
    let found = found.filter(|element| element.tag == "text");
    found.map(|element| element.text.clone()).collect()
}

/// The values of an attribute of the elements of a class.
fn values(elements: &[Element], class: &str, attribute: &str) -> Vec<String> {
    let found = of_class(elements, class).into_iter();
    found
        .map(|element| element.get(attribute).to_string())
        .collect()
}
