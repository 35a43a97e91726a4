//! The nodes that only version 3 has: derived operators, which are expanded.

/// How often something may come: from m to n times, m at most n.
#[derive(Clone, Copy, Debug, PartialEq, Eq)]
pub struct Bounds {
    pub m: usize,
    pub n: usize,
}

/// One derived operator with its operands and, after them, its bounds or m.
#[derive(Clone, Copy, Debug, PartialEq, Eq)]
pub enum Derived {
    /// `R[*m:n]`
    Times(usize, Bounds),
    /// `R ##[m:n] S`
    Delay(usize, usize, Bounds),
    /// `b[->m]`
    Goto(usize, usize),
    /// `b[=m]`
    Nonconsecutive(usize, usize),
    /// `R |=> P`
    ImpliesNext(usize, usize),
    /// `R #-# P`
    Followed(usize, usize),
    /// `R #=# P`
    FollowedNext(usize, usize),
    Always(usize),
    /// `s_eventually P`
    Eventually(usize),
    /// `P s_until Q`
    StrongUntil(usize, usize),
    /// `s_nexttime P`
    StrongNexttime(usize),
}

impl Derived {
    /// The derived node with this operator, x, y and fourth byte, if there is one.
    pub fn new(operator: u8, [x, y, fourth]: [usize; 3]) -> Option<Derived> {
        let (m, n) = (fourth % 16, fourth / 16);
        let derived = match operator {
            23 => Derived::Times(x, Bounds { m, n }),
            24 => Derived::Delay(x, y, Bounds { m, n }),
            25 => Derived::Goto(x, fourth),
            26 => Derived::Nonconsecutive(x, fourth),
            41 => Derived::ImpliesNext(x, y),
            42 => Derived::Followed(x, y),
            43 => Derived::FollowedNext(x, y),
            44 => Derived::Always(x),
            45 => Derived::Eventually(x),
            46 => Derived::StrongUntil(x, y),
            47 => Derived::StrongNexttime(x),
            _ => return None,
        };
        Some(derived)
    }

    /// Operator, and then x, y and fourth byte.
    pub fn parts(self) -> (u8, [usize; 3]) {
        match self {
            Derived::Times(x, Bounds { m, n }) => (23, [x, 0, m + 16 * n]),
            Derived::Delay(x, y, Bounds { m, n }) => (24, [x, y, m + 16 * n]),
            Derived::Goto(x, m) => (25, [x, 0, m]),
            Derived::Nonconsecutive(x, m) => (26, [x, 0, m]),
            Derived::ImpliesNext(x, y) => (41, [x, y, 0]),
            Derived::Followed(x, y) => (42, [x, y, 0]),
            Derived::FollowedNext(x, y) => (43, [x, y, 0]),
            Derived::Always(x) => (44, [x, 0, 0]),
            Derived::Eventually(x) => (45, [x, 0, 0]),
            Derived::StrongUntil(x, y) => (46, [x, y, 0]),
            Derived::StrongNexttime(x) => (47, [x, 0, 0]),
        }
    }
}
