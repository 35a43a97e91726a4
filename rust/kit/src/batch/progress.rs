//! The bar that a person watches while many records are judged.
use crate::console::Console;
use std::time::Instant;

/// The columns of the line. The last column of a terminal stays free, or some would wrap.
const COLUMNS: usize = 79;

/// The columns inside the bar.
const BAR: usize = 24;

/// A line on a terminal that is drawn over again, and erased at the end. Nothing is drawn anywhere
/// else.
pub struct Progress<'a, 'b> {
    console: &'a mut Console<'b>,
    all: usize,
    begun: Instant,
}

impl<'a, 'b> Progress<'a, 'b> {
    /// Draws the line with none of `all` records done.
    pub fn begin(console: &'a mut Console<'b>, all: usize) -> Progress<'a, 'b> {
        let begun = Instant::now();
        let mut progress = Progress {
            console,
            all,
            begun,
        };
        progress.draw(0);
        progress
    }

    /// Draws the line.
    pub fn draw(&mut self, done: usize) {
        if self.console.live {
            let line = line(done, self.all, self.begun.elapsed().as_secs_f64());
            self.console.tell(&format!("\r{line:<COLUMNS$.COLUMNS$}"));
        }
    }

    /// Erases the line.
    pub fn erase(self) {
        if self.console.live {
            self.console.tell(&format!("\r{:COLUMNS$}\r", ""));
        }
    }
}

fn line(done: usize, all: usize, seconds: f64) -> String {
    let part = done as f64 / all.max(1) as f64;
    let full = ((part * BAR as f64) as usize).min(BAR);
    let bar = "#".repeat(full) + &".".repeat(BAR - full);
    let percent = (part * 100.0) as usize;
    let line = format!("[{bar}] {done}/{all} {percent}%");
    match seconds > 0.0 && done > 0 {
        true => format!("{line}  {:.0} records a second", done as f64 / seconds),
        false => line,
    }
}

#[cfg(test)]
mod tests {
    use super::*;

    #[test]
    fn the_line_says_how_far_it_is() {
        let none = "[........................] 0/8 0%";
        assert_eq!(line(0, 8, 0.0), none);
        assert_eq!(line(0, 8, 1.0), none);
        assert_eq!(
            line(3, 8, 0.5),
            "[#########...............] 3/8 37%  6 records a second"
        );
        assert_eq!(
            line(8, 8, 2.0),
            "[########################] 8/8 100%  4 records a second"
        );
        assert!(line(9_999_999, 10_000_000, 10.0).len() <= COLUMNS);
    }

    fn drawn(live: bool, all: usize) -> String {
        let (mut out, mut err) = (Vec::new(), Vec::new());
        let mut console = Console {
            out: &mut out,
            err: &mut err,
            live,
        };
        let mut progress = Progress::begin(&mut console, all);
        progress.draw(all);
        progress.erase();
        assert_eq!(out, b"");
        String::from_utf8(err).unwrap()
    }

    #[test]
    fn the_line_fits_and_is_erased() {
        for all in [1, 100_000, usize::MAX] {
            let drawn = drawn(true, all);
            let lines: Vec<&str> = drawn.split('\r').collect();
            let [before, first, last, blank, after] = lines[..] else {
                panic!("{} lines", lines.len());
            };
            assert!(first.contains(&format!("0/{all} 0%")));
            assert!(last.contains(&format!("{all}/{all}")));
            assert!([first, last, blank].iter().all(|line| line.len() == 79));
            assert_eq!((before, blank.trim(), after), ("", "", ""));
        }
    }

    #[test]
    fn nothing_is_drawn_in_a_pipe() {
        assert_eq!(drawn(false, 100_000), "");
    }
}
