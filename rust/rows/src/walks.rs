//! The rules of sequences that walk the ends of a start. A start takes over what the start above it has reached, where its own ends cover those of that start, and walks
//! only the others; and it visits only ends from which there is something to reach. After many visits in one row the other starts look their ends up by fours.
use crate::below::Below;
use crate::fours::Fours;
use crate::words::{with_next, zeros, PLACES};
use crate::{Row, TOP};

/// So many visits in one row have cost more than to join its words by fours; those of a repetition wait for each other, and cost more.
const MANY: usize = 128;
const MANY_CHAINED: usize = 64;

/// What the last start that had ends has walked, and where that led; and how many visits there were in the row.
#[derive(Default)]
struct Walk {
    ends: u64,
    reached: u64,
    visits: usize,
}

impl Walk {
    /// Goes on to a start with these ends; answers those that are left to walk. Where they do not cover those of the last start, nothing is taken over.
    fn take_over(&mut self, ends: u64) -> u64 {
        let covered = self.ends & !ends == 0;
        let walked = if covered { self.ends } else { 0 };
        self.reached = if covered { self.reached } else { 0 };
        self.ends = ends;
        ends & !walked
    }

    /// Where the ends of the next start lead to in a row. A start with none leaves what the one before it has walked to the next.
    fn by_visits(&mut self, row: &Row, ends: u64) -> u64 {
        if ends == 0 {
            return 0;
        }
        let left = self.take_over(ends);
        self.visit(row, left);
        self.reached
    }

    /// The same in the repetition's own row.
    fn by_chain(&mut self, own: &Row, ends: u64) -> u64 {
        if ends == 0 {
            return 0;
        }
        let left = self.take_over(ends);
        self.chain(own, left);
        self.reached
    }

    /// Joins the words of a row at the places.
    fn visit(&mut self, row: &Row, mut places: u64) {
        while places != 0 {
            self.reached |= row[next(&mut places)];
            self.visits += 1;
        }
    }

    /// Joins the words of the repetition itself at the places. It leads nowhere else from a place that it has reached, so those are not visited.
    fn chain(&mut self, own: &Row, mut places: u64) {
        places &= !self.reached;
        while places != 0 {
            self.reached |= own[next(&mut places)];
            self.visits += 1;
            places &= !self.reached;
        }
    }
}

/// Takes the lowest place out of a set that has one, and answers it.
fn next(places: &mut u64) -> usize {
    let place = places.trailing_zeros();
    *places &= *places - 1;
    place as usize
}

/// `##1`.
pub fn then(own: &mut Row, below: &Below, n: usize, x: u8, y: u8) -> u64 {
    let (a, b) = (below.row(x), below.row(y));
    let second = Second {
        row: b,
        leading: below.starts(y),
        // From n only the empty match can end. Where the second has one, each end of the first is an end.
        kept: if b[n] == 0 { 0 } else { u64::MAX },
    };
    // The first match may also end among the letters ⊤, where the second is then empty or goes on.
    let onward = (b[n] | b[TOP]) & PLACES[n] != 0;
    walked(own, a, &second, onward, n, |ends, _| ends)
}

/// `##0`: what the second match begins at is the last letter of the first.
pub fn fused(own: &mut Row, below: &Below, n: usize, x: u8, y: u8) -> u64 {
    let (a, b) = (below.row(x), below.row(y));
    let stripped;
    let second = Second {
        row: if b[n] == 0 {
            b
        } else {
            stripped = without_empty(b);
            &stripped
        },
        leading: below.starts(y),
        kept: 0,
    };
    let onward = b[TOP] & PLACES[n] != 0;
    let last_letters = |ends: u64, place: u64| (ends & !place) >> 1;
    walked(own, a, &second, onward, n, last_letters)
}

/// The row without its empty matches.
fn without_empty(row: &Row) -> Row {
    let mut out = *row;
    for (word, place) in out.iter_mut().zip(PLACES) {
        *word &= !place;
    }
    out
}

/// The second of two matches: its row, where those of its matches begin that are not empty, and the places that are ends of both by its empty match.
struct Second<'a> {
    row: &'a Row,
    leading: u64,
    kept: u64,
}

/// Each start's word from where its first matches lead to, which the rule makes of their ends and the start's place.
#[inline(always)]
fn walked(
    own: &mut Row,
    a: &Row,
    second: &Second,
    onward: bool,
    n: usize,
    rule: impl Fn(u64, u64) -> u64,
) -> u64 {
    let &Second { row, leading, kept } = second;
    let mut walk = Walk::default();
    let (mut starts, mut open) = (0, 0);
    let mut left = n + 1;
    for ((word, &first), &place) in own.iter_mut().zip(a).zip(&PLACES[..=n]).rev() {
        let first = rule(first, place);
        let ends = first & leading;
        let reached = walk.by_visits(row, ends);
        *word = reached | first & kept;
        starts = with_next(starts, *word > place);
        open = with_next(open, first & row[TOP] != 0);
        left -= 1;
        if walk.visits > MANY {
            break;
        }
    }
    if left > 0 {
        let fours = Fours::of(row, 0);
        for ((word, &first), &place) in own.iter_mut().zip(a).zip(&PLACES[..left]).rev() {
            let first = rule(first, place);
            *word = fours.joined(first & leading) | first & kept;
            starts = with_next(starts, *word > place);
            open = with_next(open, first & row[TOP] != 0);
        }
    }
    zeros(own, n + 1);
    own[TOP] = open | if onward { a[TOP] } else { 0 };
    starts
}

/// `[*1:$]`, from the last start down, so that the words it leads to are there.
pub fn repeat(own: &mut Row, below: &Below, n: usize, x: u8) -> u64 {
    let a = below.row(x);
    let leading = below.starts(x);
    let mut walk = Walk::default();
    let mut open = 0;
    let mut left = n + 1;
    for (i, (&first, &place)) in a.iter().zip(&PLACES[..=n]).enumerate().rev() {
        let ends = first & leading & !place;
        own[i] = first | walk.by_chain(own, ends);
        open = with_next(open, (own[i] | place) & a[TOP] != 0);
        left = i;
        if walk.visits > MANY_CHAINED {
            break;
        }
    }
    zeros(own, n + 1);
    if left > 0 {
        open = repeated_by_fours(own, a, leading, left, open);
    }
    own[TOP] = open | a[TOP];
    leading
}

/// The starts below `left`. A four is made when its lowest start is done; until then its places are visited.
fn repeated_by_fours(own: &mut Row, a: &Row, leading: u64, left: usize, mut open: u64) -> u64 {
    let mut fours = Fours::of(own, left.div_ceil(4));
    for (i, (&first, &place)) in a.iter().zip(&PLACES[..left]).enumerate().rev() {
        let ends = first & leading & !place;
        let near = ends & 15 << (i / 4 * 4);
        let mut walk = Walk {
            reached: fours.joined(ends & !near),
            ..Walk::default()
        };
        walk.visit(own, near);
        own[i] = first | walk.reached;
        open = with_next(open, (own[i] | place) & a[TOP] != 0);
        if i.is_multiple_of(4) {
            fours.add(own, i / 4);
        }
    }
    open
}

#[cfg(test)]
mod tests {
    use super::*;

    /// Rows of which word i has places from i + 1 on, each one time in a few (splitmix64).
    fn row(seed: u64, n: usize, few: u64) -> Row {
        let mut state = seed;
        let mut number = || {
            state = state.wrapping_add(0x9e37_79b9_7f4a_7c15);
            let z = (state ^ state >> 30).wrapping_mul(0xbf58_476d_1ce4_e5b9);
            (z ^ z >> 27).wrapping_mul(0x94d0_49bb_1331_11eb) >> 32
        };
        let mut row = [0; 65];
        for (i, word) in row[..=n].iter_mut().enumerate() {
            for end in i + 1..=n {
                *word |= u64::from(number() % few == 0) << end;
            }
        }
        row
    }

    fn starts(row: &Row) -> u64 {
        let place = |(word, place): (&u64, &u64)| if *word == 0 { 0 } else { *place };
        row.iter().zip(PLACES).map(place).sum()
    }

    /// The words of a row at the places of a set, joined.
    fn joined(row: &Row, places: u64) -> u64 {
        let at = |i: &usize| places >> i & 1 == 1;
        (0..64).filter(at).fold(0, |ends, i| ends | row[i])
    }

    /// Every start below each `left` by fours, those above one by one: the same as all of them one by one.
    #[test]
    fn repetitions_by_fours() {
        for seed in 0..60 {
            let n = 30 + seed as usize % 34;
            let a = row(seed, n, 2 + seed % 40);
            let mut naive = [0; 65];
            for i in (0..=n).rev() {
                naive[i] = a[i] | joined(&naive, a[i]);
            }
            for left in 1..=n + 1 {
                let mut own = naive;
                own[..left].fill(0x5555_5555_5555_5555);
                repeated_by_fours(&mut own, &a, starts(&a), left, 0);
                assert_eq!(own, naive, "seed {seed}, left {left}");
            }
        }
    }

    /// The words joined by visits, and by fours from the first visits on where they are many.
    #[test]
    fn walks_of_few_and_many_ends() {
        for seed in 0..400 {
            let n = 20 + seed as usize % 44;
            let [a, b] = [1, 2].map(|which| row(2 * seed + which, n, 1 + seed % 20));
            let second = Second {
                row: &b,
                leading: starts(&b),
                kept: 0,
            };
            let mut own = [0x5555_5555_5555_5555; 65];
            let found = walked(&mut own, &a, &second, false, n, |ends, _| ends);
            let mut expected = [0; 65];
            for (word, &ends) in expected.iter_mut().zip(&a) {
                *word = joined(&b, ends);
            }
            assert_eq!(own[..TOP], expected[..TOP], "seed {seed}");
            assert_eq!(found, starts(&expected), "seed {seed}");
        }
    }
}
