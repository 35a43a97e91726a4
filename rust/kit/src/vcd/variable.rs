//! A variable that a waveform declares.

/// The indexes of a vector's bits, from the left one to the right one.
#[derive(Clone, Copy, Debug, PartialEq, Eq)]
pub struct Range {
    /// The index of the leftmost bit.
    pub left: i64,
    /// The index of the rightmost bit.
    pub right: i64,
}

impl Range {
    /// Parts `data[7:0]` or `data[3]` into the name and the indexes.
    pub fn split(text: &str) -> Option<(&str, Range)> {
        let (name, inside) = text.strip_suffix(']')?.rsplit_once('[')?;
        let index = |text: &str| text.trim().parse::<i32>().ok().map(i64::from);
        let (left, right) = match inside.split_once(':') {
            Some((left, right)) => (index(left)?, index(right)?),
            None => (index(inside)?, index(inside)?),
        };
        Some((name, Range { left, right }))
    }

    /// How many bits it has.
    pub fn count(self) -> u64 {
        self.left.abs_diff(self.right).saturating_add(1)
    }

    /// The place of an index, counted from 0 at the right.
    pub fn place(self, index: i64) -> Option<u64> {
        let (low, high) = (self.left.min(self.right), self.left.max(self.right));
        (low..=high)
            .contains(&index)
            .then(|| index.abs_diff(self.right))
    }
}

/// A variable: where it stands, what it is, and the code that its changes go by.
#[derive(Clone, Debug)]
pub struct Variable {
    /// The scopes and the name, with dots between, without the indexes of its bits.
    pub path: String,
    /// The bytes of the path that are the name's.
    name: usize,
    /// The kind, such as wire, reg or real.
    pub kind: String,
    /// How many bits it has.
    pub width: u32,
    /// The indexes of its bits, where it declares them.
    pub range: Option<Range>,
    /// Its code. Variables with the same code are always of the same value.
    pub code: Vec<u8>,
}

impl Variable {
    /// A variable in a scope. Indexes that are not as many as the bits belong to the name: `mem[0]` of
    /// 8 bits is a word of a memory.
    pub fn new(
        scope: &str,
        kind: String,
        width: u32,
        code: Vec<u8>,
        reference: &Reference,
    ) -> Variable {
        let whole = format!("{}{}", reference.name, reference.indexes);
        let split = Some(whole.as_str())
            .filter(|_| !reference.is_escaped())
            .and_then(Range::split)
            .filter(|(_, range)| range.count() == u64::from(width));
        let (name, range) = match split {
            Some((name, range)) => (name, Some(range)),
            None => (whole.as_str(), None),
        };
        let dot = if scope.is_empty() { "" } else { "." };
        Variable {
            path: format!("{scope}{dot}{name}"),
            name: name.len(),
            kind,
            width,
            range,
            code,
        }
    }

    /// The name alone.
    pub fn name(&self) -> &str {
        let start = self.path.len().saturating_sub(self.name);
        self.path.get(start..).unwrap_or_default()
    }

    /// Whether it has bits to record: a real number, a string or an event has none.
    pub fn has_bits(&self) -> bool {
        let kind = self.kind.as_str();
        self.width > 0 && !kind.contains("real") && !matches!(kind, "string" | "event")
    }

    /// The indexes of its bits; where a vector declares none, they go down to 0.
    pub fn indexes(&self) -> Option<Range> {
        let left = i64::from(self.width).saturating_sub(1);
        let plain = Range { left, right: 0 };
        self.range.or(Some(plain).filter(|_| self.width > 1))
    }

    /// Its bits for a reader: `1`, `[7:0]`, `[3]`, or `-` where it has none.
    pub fn bits(&self) -> String {
        match self.indexes() {
            _ if !self.has_bits() => "-".to_string(),
            None => "1".to_string(),
            Some(Range { left, right }) if left == right => format!("[{left}]"),
            Some(Range { left, right }) => format!("[{left}:{right}]"),
        }
    }
}

/// How a declaration refers to its variable: a name, and the indexes that stand apart from it.
#[derive(Debug, Default)]
pub struct Reference {
    name: String,
    indexes: String,
}

impl Reference {
    /// Reads the last words of a declaration: `data`, `data [7:0]`, `data[7:0]`, `data [ 7 : 0 ]`, or
    /// a name with spaces such as `CH 1`.
    pub fn of(words: &[String]) -> Reference {
        let mut reference = Reference::default();
        for word in words {
            if word.starts_with('[') || !reference.indexes.is_empty() {
                reference.indexes.push_str(word);
            } else {
                let space = if reference.name.is_empty() { "" } else { " " };
                reference.name.push_str(space);
                reference.name.push_str(word);
            }
        }
        reference
    }

    /// Whether brackets at the end are part of an escaped name, as in `\a[3]`. VHDL's escaped names
    /// end in a backslash of their own, and indexes may follow it.
    fn is_escaped(&self) -> bool {
        let before = self.name.rsplit_once('[').map_or("", |(before, _)| before);
        let closed = before.len() > 1 && before.ends_with('\\');
        self.name.starts_with('\\') && self.indexes.is_empty() && !closed
    }
}

#[cfg(test)]
mod tests {
    use super::*;

    fn variable(width: u32, words: &[&str]) -> Variable {
        let words: Vec<String> = words.iter().map(|word| word.to_string()).collect();
        let reference = Reference::of(&words);
        Variable::new("top", "wire".to_string(), width, b"!".to_vec(), &reference)
    }

    #[test]
    fn a_name_and_its_indexes() {
        let cases: [(u32, &[&str], &str, &str); 16] = [
            (1, &["ack"], "top.ack", "1"),
            (8, &["data", "[7:0]"], "top.data", "[7:0]"),
            (8, &["data[7:0]"], "top.data", "[7:0]"),
            (8, &["data", "[", "7", ":", "0", "]"], "top.data", "[7:0]"),
            (8, &["data", "[0:7]"], "top.data", "[0:7]"),
            (4, &["data", "[-1:2]"], "top.data", "[-1:2]"),
            (1, &["data", "[3]"], "top.data", "[3]"),
            (1, &["data[3]"], "top.data", "[3]"),
            (1, &["data[0:0]"], "top.data", "[0]"),
            (32, &["count"], "top.count", "[31:0]"),
            (8, &["mem[0]", "[7:0]"], "top.mem[0]", "[7:0]"),
            (8, &["mem", "[0]"], "top.mem[0]", "[7:0]"),
            (8, &["mem[1:0][3:0]"], "top.mem[1:0][3:0]", "[7:0]"),
            (1, &["\\a[3]"], "top.\\a[3]", "1"),
            (8, &["\\a.b", "[7:0]"], "top.\\a.b", "[7:0]"),
            (8, &["\\a.b\\[7:0]"], "top.\\a.b\\", "[7:0]"),
        ];
        for (width, words, path, bits) in cases {
            let variable = variable(width, words);
            assert_eq!(
                (variable.path.as_str(), variable.bits().as_str()),
                (path, bits)
            );
            assert_eq!(format!("top.{}", variable.name()), path);
        }
        assert_eq!(variable(1, &["CH", "1"]).path, "top.CH 1");
    }

    #[test]
    fn a_place_counts_from_the_right() {
        let down = Range { left: 7, right: 0 };
        let up = Range { left: 0, right: 7 };
        let around = Range { left: -1, right: 2 };
        assert_eq!(
            (down.place(3), up.place(3), around.place(-1)),
            (Some(3), Some(4), Some(3))
        );
        assert_eq!(
            (down.place(8), up.place(-1), around.place(3)),
            (None, None, None)
        );
        assert_eq!((down.count(), around.count()), (8, 4));
        let wide = Range::split("a[-2147483648:2147483647]").unwrap().1;
        assert_eq!(wide.count(), 1 << 32);
        assert_eq!(Range::split("a[2147483648]"), None);
        assert_eq!(Range::split("a[]"), None);
        assert_eq!(Range::split("a]"), None);
    }

    #[test]
    fn numbers_strings_and_events_have_no_bits() {
        for kind in ["real", "realtime", "string", "event"] {
            let variable = Variable {
                kind: kind.to_string(),
                ..variable(64, &["a"])
            };
            assert_eq!(
                (variable.has_bits(), variable.bits().as_str()),
                (false, "-")
            );
        }
        assert!(!variable(0, &["none"]).has_bits());
    }
}
