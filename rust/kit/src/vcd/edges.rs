//! The edges of a clock.
use super::bit::Bit;

/// The edge of a clock at which samples are taken.
#[derive(Clone, Copy, Debug, PartialEq, Eq)]
pub enum Edge {
    /// From 0 to 1.
    Rising,
    /// From 1 to 0.
    Falling,
    /// Both.
    Either,
}

impl Edge {
    /// The edge with a name of Verilog's.
    pub fn of(word: &str) -> Option<Edge> {
        [Edge::Rising, Edge::Falling, Edge::Either]
            .into_iter()
            .find(|edge| edge.word() == word)
    }

    /// Verilog's name.
    pub fn word(self) -> &'static str {
        match self {
            Edge::Rising => "posedge",
            Edge::Falling => "negedge",
            Edge::Either => "edge",
        }
    }

    /// Whether there is an edge from one settled value of a clock to the next; none where that is not
    /// known, since a change from or to an unknown value could be one. An unknown value stands for one
    /// value, 0 or 1, so it has no edge inside.
    pub fn between(self, before: Option<bool>, after: Option<bool>) -> Option<bool> {
        let ends = |value: bool| match self {
            Edge::Rising => value,
            Edge::Falling => !value,
            Edge::Either => true,
        };
        match (before, after) {
            (Some(before), Some(after)) => Some(before != after && ends(after)),
            (None, Some(after)) if ends(after) => None,
            (Some(before), None) if ends(!before) => None,
            _ => Some(false),
        }
    }
}

/// Whether a clock goes from one unknown value to another, such as from x to z: they may be 0 and 1.
pub fn unlike(before: Bit, after: Bit) -> bool {
    match (before, after) {
        (Bit::Unknown(before), Bit::Unknown(after)) => !before.eq_ignore_ascii_case(&after),
        _ => false,
    }
}

/// Whether a time is in or at the end of a stretch in which the clock was not dumped, so that any
/// number of edges may be missing from the time at which sampling starts.
pub fn hidden(before: Bit, after: Bit, time: u128, from: u128) -> bool {
    before == Bit::Off && time > from || after == Bit::Off && time >= from
}

#[cfg(test)]
mod tests {
    use super::*;

    /// Worked out by putting 0 and 1 in the place of each x: it is not known where they differ.
    #[test]
    fn an_edge_is_seen_or_not_or_not_known() {
        let (zero, one, x) = (Some(false), Some(true), None);
        let (yes, no, open) = (Some(true), Some(false), None);
        let table = [
            (zero, zero, [no, no, no]),
            (zero, one, [yes, no, yes]),
            (one, zero, [no, yes, yes]),
            (one, one, [no, no, no]),
            (x, one, [open, no, open]),
            (x, zero, [no, open, open]),
            (zero, x, [open, no, open]),
            (one, x, [no, open, open]),
            (x, x, [no, no, no]),
        ];
        for (before, after, expected) in table {
            let edges = [Edge::Rising, Edge::Falling, Edge::Either];
            let got = edges.map(|edge| edge.between(before, after));
            assert_eq!(got, expected, "{before:?} to {after:?}");
        }
    }

    #[test]
    fn edges_have_verilogs_names() {
        let words = ["posedge", "negedge", "edge"];
        assert_eq!(words.map(|word| Edge::of(word).unwrap().word()), words);
        assert_eq!(Edge::of("rising"), None);
    }
}
