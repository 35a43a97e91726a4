//! Random cases of the expander.

use super::{any_root, damaged, fault, lent_for, made, made_too_large};
use crate::case::Case;
use crate::damage_derived::damage_derived;
use crate::random::Random;
use crate::versions::Call;

/// Expanding a table.
pub fn expand_case(random: &mut Random) -> Case {
    let root = any_root(random);
    // A damaged table, 1, has the rarest refusals.
    let fault = fault(random, &[1, 1, 1, 2, 3, 5, 5]);
    let mut table = match fault {
        2 => made_too_large(random, Call::Expand, root),
        _ => made(random, Call::Expand, root),
    };
    let bytes = lent_for(random, table.m, fault);
    if fault == 1 || fault != 0 && random.percent(10) {
        damaged(random, &mut table.bytes);
    }
    if fault == 5 {
        damage_derived(random, &mut table.bytes);
    }
    let table = table.bytes;
    Case::Expand { table, bytes }
}
