//! The matches of a sequence by their definition, pair by pair: from i to j, on a record followed by a few letters ⊤.

/// Whether the letters from i to j - 1 match, for every i and j up to the length of the word.
#[derive(Clone)]
pub struct Matches {
    length: usize,
    pairs: Vec<bool>,
}

impl Matches {
    /// Those pairs of i and j, with i at most j, that the rule takes.
    fn new(length: usize, rule: impl Fn(usize, usize) -> bool) -> Self {
        let side = length + 1;
        let pair = |k: usize| (k / side, k % side);
        let pairs = (0..side * side).map(pair);
        Self {
            length,
            pairs: pairs.map(|(i, j)| i <= j && rule(i, j)).collect(),
        }
    }

    pub fn has(&self, i: usize, j: usize) -> bool {
        self.pairs[i * (self.length + 1) + j]
    }

    fn letter(length: usize, holds: impl Fn(usize) -> bool) -> Self {
        Self::new(length, |i, j| j == i + 1 && holds(i))
    }

    fn empty(length: usize) -> Self {
        Self::new(length, |i, j| i == j)
    }

    fn either(&self, other: &Self) -> Self {
        Self::new(self.length, |i, j| self.has(i, j) || other.has(i, j))
    }

    fn then(&self, other: &Self) -> Self {
        let splits = |i, j| (i..=j).any(|k| self.has(i, k) && other.has(k, j));
        Self::new(self.length, splits)
    }

    /// The two share the letter k.
    fn fused(&self, other: &Self) -> Self {
        let splits = |i, j| (i..j).any(|k| self.has(i, k + 1) && other.has(k, j));
        Self::new(self.length, splits)
    }

    /// One more match at the end, until there are no more pairs.
    fn repeated(&self) -> Self {
        let mut all = self.clone();
        loop {
            let more = all.either(&all.then(self));
            if more.pairs == all.pairs {
                return all;
            }
            all = more;
        }
    }
}

/// The matches of every node of a table without clocks, whose booleans are constants and signals; a boolean has none. Behind the samples stand so many letters ⊤.
pub fn of_nodes(nodes: &[[u8; 4]], samples: &[u64], tops: usize) -> Vec<Matches> {
    let length = samples.len() + tops;
    let mut all: Vec<Matches> = Vec::new();
    for &[op, x, y, _] in nodes {
        let (x, y) = (usize::from(x), usize::from(y));
        let holds = |b: [u8; 4], i: usize| match (b, samples.get(i)) {
            (_, None) => true,
            ([0, value, ..], _) => value == 1,
            ([_, signal, ..], Some(sample)) => sample >> signal & 1 == 1,
        };
        all.push(match op {
            16 => Matches::letter(length, |i| holds(nodes[x], i)),
            17 => all[x].then(&all[y]),
            18 => all[x].fused(&all[y]),
            19 => all[x].either(&all[y]),
            20 => Matches::empty(length),
            21 => all[x].repeated(),
            _ => Matches::new(length, |_, _| false),
        });
    }
    all
}
