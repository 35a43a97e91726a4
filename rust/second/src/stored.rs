//! A stored set of cases with their answers, kept to a moderate size: those that
//! are listed, and random ones.

use crate::case::answer;
use crate::generate::random_case;
use crate::listed::listed;
use crate::random::Random;
use crate::text::{answer_text, case_text};

/// About how large the random cases may become in either file.
const MOST_CHARACTERS: usize = 1_450_000;

/// Every so many cases one may be of any size, so that large ones are there.
const ANY_SIZE: u64 = 12;

/// How often a smaller case is looked for before a larger one is taken.
const MOST_TRIES: usize = 60;

/// The text of the listed cases and of so many random ones, and of their answers.
pub fn stored(seed: u64, count: u64) -> (String, String) {
    let listed = listed();
    let (mut cases, mut answers) = (String::new(), String::new());
    for (label, case) in (1..).zip(&listed) {
        let lines = (case_text(label, case), answer_text(label, &answer(case)));
        add(&mut cases, &mut answers, lines);
    }
    let drawn = drawn(seed, listed.len() as u64 + 1, count);
    (cases + &drawn.0, answers + &drawn.1)
}

/// Adds a case and its answer, each as a line.
fn add(cases: &mut String, answers: &mut String, (case, answer): (String, String)) {
    *cases += &(case + "\n");
    *answers += &(answer + "\n");
}

/// So many random cases, labelled from the first on, from seeds drawn from one
/// seed. Where the files would grow too fast, smaller cases are drawn instead.
fn drawn(seed: u64, first: u64, count: u64) -> (String, String) {
    let mut seeds = Random::new(seed);
    let (mut cases, mut answers) = (String::new(), String::new());
    for place in 1..=count {
        let room = match place % ANY_SIZE {
            0 => usize::MAX,
            _ => room(&cases, place, count).min(room(&answers, place, count)),
        };
        let lines = fitting(&mut seeds, first + place - 1, room);
        add(&mut cases, &mut answers, lines);
    }
    (cases, answers)
}

/// How long the next line may be: its share where the file is ahead of its
/// place, else a few times that.
fn room(file: &str, place: u64, count: u64) -> usize {
    let share = MOST_CHARACTERS / count as usize;
    if file.len() > share.saturating_mul(place as usize) {
        share
    } else {
        4 * share
    }
}

/// The next case with its answer that fits the room, or the smallest of many.
fn fitting(seeds: &mut Random, label: u64, room: usize) -> (String, String) {
    let mut smallest: Option<(String, String)> = None;
    for _ in 0..MOST_TRIES {
        let case = random_case(seeds.next());
        let text = case_text(label, &case);
        let best = smallest.as_ref().map_or(usize::MAX, |(text, _)| text.len());
        if text.len() < best {
            let answer = answer_text(label, &answer(&case));
            let fits = text.len() < room && answer.len() < room;
            smallest = Some((text, answer));
            if fits {
                break;
            }
        }
    }
    smallest.unwrap_or_default()
}
