//! Whether a table is tested, by the sentences of docs/FORMAT.md (Tested) and position by position. Where a property holds and a sequence matches is read off the rows.

/// A table's nodes with their clocks, the new node that stands for each, and what the judge left of n samples.
pub struct Naive<'a> {
    nodes: &'a [[u8; 4]],
    clocks: Vec<Option<u8>>,
    numbers: Vec<usize>,
    words: &'a [u64],
    n: usize,
}

impl<'a> Naive<'a> {
    pub fn new(nodes: &'a [[u8; 4]], words: &'a [u64], n: usize) -> Self {
        let clocks = clocks(nodes);
        let numbers = numbers(nodes, &clocks);
        Self {
            nodes,
            clocks,
            numbers,
            words,
            n,
        }
    }

    /// Whether the root is tested from position 0.
    pub fn root(&self) -> bool {
        self.tested(self.nodes.len() as u8 - 1)[0]
    }

    /// For each position from 0 to n, whether the property is tested from there.
    fn tested(&self, k: u8) -> Vec<bool> {
        let [op, x, y, _] = self.nodes[usize::from(k)];
        match op {
            32 | 33 => self.each(|_| true),
            34 => self.tested(x),
            35 | 36 => {
                let (p, q) = (self.tested(x), self.tested(y));
                self.each(|i| p[i] || q[i])
            }
            37 => {
                let p = self.tested(y);
                let from = |i| i + 1..=self.n;
                self.each(|i| from(i).any(|end| self.matches(x, i, end) && p[end - 1]))
            }
            38 => {
                let p = self.tested(x);
                self.each(|i| self.next(k, i).is_some_and(|next| p[next]))
            }
            39 => {
                let (p, q) = (self.tested(x), self.tested(y));
                let on = |j| self.holds(x, j) && !self.holds(y, j);
                let here = |i, j| (p[j] || q[j]) && self.ticks(k, i, j).all(on);
                self.each(|i| self.ticks(k, i, self.n).any(|j| here(i, j)))
            }
            _ => self.tested(y),
        }
    }

    fn each(&self, asked: impl Fn(usize) -> bool) -> Vec<bool> {
        (0..=self.n).map(asked).collect()
    }

    /// The ticks of the node's clock from i on and before `end`: with no clock, all samples there.
    fn ticks(&self, k: u8, i: usize, end: usize) -> impl Iterator<Item = usize> + '_ {
        let clock = self.clocks[usize::from(k)];
        (i..end).filter(move |&j| clock.is_none_or(|c| self.bit(c, 0, j)))
    }

    /// Where nexttime asks its operand: at the second tick, or with no clock one position on.
    fn next(&self, k: u8, i: usize) -> Option<usize> {
        match self.clocks[usize::from(k)] {
            None => (i < self.n).then_some(i + 1),
            Some(_) => self.ticks(k, i, self.n).nth(1),
        }
    }

    /// Whether the property holds from i with no tail.
    fn holds(&self, k: u8, i: usize) -> bool {
        self.bit(k, 0, i)
    }

    /// Whether samples i to end - 1 match the sequence.
    fn matches(&self, k: u8, i: usize, end: usize) -> bool {
        self.bit(k, i, end)
    }

    /// A bit of a word of the node's row.
    fn bit(&self, k: u8, word: usize, bit: usize) -> bool {
        let row = 65 * self.numbers[usize::from(k)];
        self.words[row + word] >> bit & 1 == 1
    }
}

/// The condition of each node's clock, from the root down.
fn clocks(nodes: &[[u8; 4]]) -> Vec<Option<u8>> {
    let mut clocks = vec![None; nodes.len()];
    for (k, &[op, x, y, _]) in nodes.iter().enumerate().rev() {
        let (x_at, y_at) = (usize::from(x), usize::from(y));
        match op {
            22 | 40 => clocks[y_at] = Some(x),
            17..=19 | 35..=37 | 39 => (clocks[x_at], clocks[y_at]) = (clocks[k], clocks[k]),
            20 | 21 | 32..=34 | 38 => clocks[x_at] = clocks[k],
            _ => (),
        }
    }
    clocks
}

/// The new node that stands for each node: the booleans come first, then the last of each block; a clock node's operand stands for it.
fn numbers(nodes: &[[u8; 4]], clocks: &[Option<u8>]) -> Vec<usize> {
    let mut numbers = vec![0; nodes.len()];
    let mut next = 0;
    let (booleans, others): (Vec<_>, Vec<_>) = (0..nodes.len()).partition(|&k| nodes[k][0] < 16);
    for k in booleans.into_iter().chain(others) {
        let [op, _, y, _] = nodes[k];
        if op == 22 || op == 40 {
            numbers[k] = numbers[usize::from(y)];
            continue;
        }
        next += match (op, clocks[k]) {
            (16 | 39, Some(_)) => 9,
            (38, Some(_)) => 14,
            _ => 1,
        };
        numbers[k] = next - 1;
    }
    numbers
}
