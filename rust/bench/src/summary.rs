//! The one line under a table of ratios.

/// The ratios of a table's lines by their names.
#[derive(Default)]
pub struct Summary(Vec<(String, f64)>);

impl Summary {
    pub fn add(&mut self, name: &str, ratio: f64) {
        self.0.push((name.to_string(), ratio));
    }

    /// The geometric mean of the ratios, and the highest with its name.
    pub fn line(&self, what: &str) -> String {
        let logarithms = self.0.iter().map(|(_, ratio)| ratio.ln());
        let mean = (logarithms.sum::<f64>() / self.0.len() as f64).exp();
        match self.0.iter().max_by(|a, b| a.1.total_cmp(&b.1)) {
            None => format!("{what}: no lines"),
            Some((name, worst)) => {
                format!("{what}: geometric mean {mean:.2}, worst line {name} with {worst:.2}")
            }
        }
    }
}

#[cfg(test)]
mod tests {
    use super::Summary;

    #[test]
    fn mean_and_worst() {
        let mut summary = Summary::default();
        summary.add("first", 0.5);
        summary.add("second", 8.0);
        summary.add("third", 2.0);
        let line = "a/b: geometric mean 2.00, worst line second with 8.00";
        assert_eq!(summary.line("a/b"), line);
    }
}
