//! Whether a record tests an assertion: source 000's non-vacuity, asked of the clocked table with no tail. Where properties hold and sequences match is read off the
//! rows of the rewritten one.
use crate::below::Below;
use crate::check::MOST;
use crate::operators::*;
use crate::properties::leading_up;
use crate::rewrite::Rewritten;

/// Whether the root is tested from place 0. Each property has a set, made of those below it: the places, 0 to n, from which it is tested.
pub fn tested(nodes: &[[u8; 4]], plan: &Rewritten, new: &Below, n: usize) -> bool {
    let word = |v: u8| new.row(plan.number(v))[0];
    // The samples at which the node's clock ticks, if it has one.
    let ticks = |k: usize| plan.clock(k).map(word);
    let mut sets = [0; MOST];
    for (k, &[op, x, y, _]) in nodes.iter().enumerate() {
        let at = |v: u8| sets[usize::from(v)];
        sets[k] = match op {
            // A boolean or a sequence.
            ..STRONG => continue,
            STRONG | WEAK => u64::MAX >> (63 - n),
            NOT => at(x),
            OR | AND => at(x) | at(y),
            IMPLIES => new.asking(plan.number(x), at(y), n),
            NEXTTIME => nexttime(at(x), ticks(k)),
            UNTIL => {
                let ticks = ticks(k).unwrap_or((1 << n) - 1);
                reaching(at(x) | at(y), word(x) & !word(y), ticks)
            }
            _ => at(y),
        };
    }
    sets[nodes.len() - 1] & 1 == 1
}

/// With no clock P is asked one place on; under a clock at the second tick, which is the first one after the first.
fn nexttime(p: u64, ticks: Option<u64>) -> u64 {
    match ticks {
        None => p >> 1,
        Some(ticks) => reaching(reaching(p, 0, ticks) >> 1, 0, ticks),
    }
}

/// The places from which a tick of the set is reached, with no earlier tick but those of `through`. The runs may have places above n: none is reached from there.
fn reaching(set: u64, through: u64, ticks: u64) -> u64 {
    leading_up(through | !ticks, set & ticks)
}
