//! The level after each sample, in rows that fit a narrow terminal.
use xistomar::Level;

/// The samples of one row.
const IN_A_ROW: usize = 16;

/// The samples' numbers, and below each the level after it. The first row begins with the level before
/// any sample.
pub fn rows(levels: &[Level]) -> String {
    let Some((start, after)) = levels.split_first() else {
        return String::new();
    };
    let mut text = String::new();
    let first = after.chunks(IN_A_ROW).next().unwrap_or_default();
    text.push_str(&row(("start", &start.number().to_string()), 0, first));
    for (place, levels) in after.chunks(IN_A_ROW).enumerate().skip(1) {
        text.push('\n');
        text.push_str(&row(("", ""), place * IN_A_ROW, levels));
    }
    text
}

/// Two lines: the numbers of the samples from `from` on, and their levels.
fn row((heading, start): (&str, &str), from: usize, levels: &[Level]) -> String {
    let mut numbers = format!("  sample  {heading:>5}");
    let mut below = format!("  level   {start:>5}");
    for (sample, level) in (from..).zip(levels) {
        numbers.push_str(&format!(" {sample:>3}"));
        below.push_str(&format!(" {:>3}", level.number()));
    }
    format!("{numbers}\n{below}\n")
}

#[cfg(test)]
mod tests {
    use super::*;
    use Level::{Broken, Neutral, Strong, Weak};

    #[test]
    fn no_sample_leaves_the_level_at_the_start() {
        assert_eq!(rows(&[Weak]), "  sample  start\n  level       1\n");
    }

    #[test]
    fn levels_stand_below_their_samples() {
        let expected = "  sample  start   0   1\n  level       2   1   3\n";
        assert_eq!(rows(&[Neutral, Weak, Strong]), expected);
    }

    #[test]
    fn a_full_record_takes_four_rows() {
        let mut levels = vec![Neutral; 63];
        levels.push(Broken);
        let text = rows(&levels);
        let lines: Vec<&str> = text.lines().collect();
        // four rows of two lines, with an empty one between
        assert_eq!(lines.len(), 11);
        assert!(lines.iter().all(|line| line.chars().count() <= 80));
        let last: Vec<&str> = lines[9].split_whitespace().collect();
        let expected: Vec<String> = (48..63).map(|sample| sample.to_string()).collect();
        assert_eq!(last[0], "sample");
        assert_eq!(last[1..], expected);
        // samples 48 to 61 leave level 2, sample 62 breaks it
        let levels: Vec<&str> = lines[10].split_whitespace().skip(1).collect();
        assert_eq!((levels.len(), levels[13], levels[14]), (15, "2", "0"));
        // every number ends above its level
        for (numbers, below) in [(0, 1), (3, 4), (6, 7), (9, 10)] {
            assert_eq!(lines[numbers].len(), lines[below].len());
        }
    }

    #[test]
    fn sixteen_samples_fill_one_row() {
        assert_eq!(rows(&[Neutral; 17]).lines().count(), 2);
        assert_eq!(rows(&[Neutral; 18]).lines().count(), 5);
    }
}
