//! How much room text takes, and making it fit.

/// The room of a text in cells. A cell is 0.6 em, the advance of a monospace font; the wide
/// characters of East Asia and the pictographs take two.
pub fn cells(text: &str) -> usize {
    text.chars().map(cells_of).sum()
}

fn cells_of(character: char) -> usize {
    match character {
        '\0'..'\u{1100}' | '\u{2000}'..'\u{2e80}' => 1,
        _ => 2,
    }
}

/// The room of so many cells in a font of this size, in pixels.
pub fn room(cells: usize, size: i32) -> i32 {
    let cells = i32::try_from(cells).unwrap_or(i32::MAX);
    cells.saturating_mul(size).saturating_mul(6) / 10 + 1
}

/// A text that takes at most so many cells: a longer one loses its middle.
pub fn shorten(text: &str, most: usize) -> String {
    if cells(text) <= most {
        return text.to_string();
    }
    let kept = most.saturating_sub(1);
    let head = fitting(text.chars(), kept.div_ceil(2));
    let tail = fitting(text.chars().rev(), kept / 2);
    let tail = tail.chars().rev();
    head.chars().chain(['…']).chain(tail).collect()
}

/// The first characters that fit into so many cells.
fn fitting(characters: impl Iterator<Item = char>, most: usize) -> String {
    let mut used = 0;
    let fits = |character: &char| {
        used += cells_of(*character);
        used <= most
    };
    characters.take_while(fits).collect()
}

/// The lines of a text, each of at most so many cells. A line ends at a space; only a word that is
/// longer than a line is divided.
pub fn wrap(text: &str, most: usize) -> Vec<String> {
    let most = most.max(2);
    let mut lines = Vec::new();
    let mut line = String::new();
    let mut used = 0;
    for word in text.split_whitespace().flat_map(|word| pieces(word, most)) {
        let taken = cells(&word);
        if used > 0 && used + 1 + taken > most {
            lines.push(std::mem::take(&mut line));
            used = 0;
        }
        if used > 0 {
            line.push(' ');
            used += 1;
        }
        line.push_str(&word);
        used += taken;
    }
    lines.push(line);
    lines
}

/// A word, divided where it takes more than so many cells.
fn pieces(word: &str, most: usize) -> Vec<String> {
    let mut pieces = Vec::new();
    let mut piece = String::new();
    let mut used = 0;
    for character in word.chars() {
        let taken = cells_of(character);
        if used + taken > most {
            pieces.push(std::mem::take(&mut piece));
            used = 0;
        }
        piece.push(character);
        used += taken;
    }
    pieces.push(piece);
    pieces
}
