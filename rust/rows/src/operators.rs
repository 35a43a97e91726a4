//! The operators, and what each fixes of its node.

pub const CONSTANT: u8 = 0;
pub const SIGNAL: u8 = 1;
pub const BOOLEAN_NOT: u8 = 2;
pub const BOOLEAN_AND: u8 = 3;
pub const BOOLEAN_OR: u8 = 4;
pub const RISEN: u8 = 5;
pub const FALLEN: u8 = 6;
pub const LETTER: u8 = 16;
pub const THEN: u8 = 17;
pub const FUSED: u8 = 18;
pub const EITHER: u8 = 19;
pub const EMPTY: u8 = 20;
pub const REPEAT: u8 = 21;
pub const SEQUENCE_CLOCK: u8 = 22;
pub const TIMES: u8 = 23;
pub const DELAY: u8 = 24;
pub const GOTO: u8 = 25;
pub const NONCONSECUTIVE: u8 = 26;
pub const STRONG: u8 = 32;
pub const WEAK: u8 = 33;
pub const NOT: u8 = 34;
pub const OR: u8 = 35;
pub const AND: u8 = 36;
pub const IMPLIES: u8 = 37;
pub const NEXTTIME: u8 = 38;
pub const UNTIL: u8 = 39;
pub const PROPERTY_CLOCK: u8 = 40;
pub const IMPLIES_NEXT: u8 = 41;
pub const FOLLOWED: u8 = 42;
pub const FOLLOWED_NEXT: u8 = 43;
pub const ALWAYS: u8 = 44;
pub const EVENTUALLY: u8 = 45;
pub const STRONG_UNTIL: u8 = 46;
pub const STRONG_NEXTTIME: u8 = 47;

/// The sorts. `NONE` is that of an unknown operator's node and of a byte that is no operand.
pub const NONE: u8 = 0;
pub const BOOLEAN: u8 = 1;
pub const SEQUENCE: u8 = 2;
pub const PROPERTY: u8 = 3;

/// The versions in which an operator is known, from the first to the last: bit v for version v.
const fn versions(first: u8, last: u8) -> u8 {
    (2 << last) - (1 << first)
}

/// The versions of the base's operators, of those that ask for the sample before too, of the derived ones, and of an unknown one.
const BASE: u8 = versions(1, 4);
const PAIRS: u8 = versions(2, 4);
const DERIVED: u8 = versions(3, 3);
const NEVER: u8 = 0;

/// What the fourth byte is: 0, m, which is below 16, or m + 16n with m at most n.
#[derive(Clone, Copy)]
pub enum Fourth {
    Zero,
    Count,
    Bounds,
}

impl Fourth {
    /// Whether the byte is one of these.
    pub fn fits(self, byte: u8) -> bool {
        match self {
            Fourth::Zero => byte == 0,
            Fourth::Count => byte < 16,
            Fourth::Bounds => byte & 15 <= byte >> 4,
        }
    }
}

/// The versions that know the operator, the node's own sort, the sorts of x and y, the number that x is below where it is no operand, the fourth byte, and the
/// length of the node's block under a clock, 0 for a clock node and for one that is expanded first. No version changes anything but whether the operator is known.
#[derive(Clone, Copy)]
pub struct Operator {
    versions: u8,
    pub own: u8,
    pub x: u8,
    pub y: u8,
    pub limit: u8,
    pub fourth: Fourth,
    pub block: u8,
}

impl Operator {
    /// Whether a table of the version may have the operator.
    pub const fn is_known(self, version: u8) -> bool {
        self.versions >> version & 1 == 1
    }
}

/// One entry for every byte, so that no lookup has a bound to check.
pub static OPERATORS: [Operator; 256] = OPERATORS_BY_BYTE;

/// The same for what is made when this is compiled.
pub const OPERATORS_BY_BYTE: [Operator; 256] = all();

const fn operator(versions: u8, own: u8, x: u8, y: u8, block: u8) -> Operator {
    Operator {
        versions,
        own,
        x,
        y,
        limit: 1,
        fourth: Fourth::Zero,
        block,
    }
}

/// A derived operator, by its sort, those of x and y, and its fourth byte.
const fn derived(own: u8, x: u8, y: u8, fourth: Fourth) -> Operator {
    Operator {
        fourth,
        ..operator(DERIVED, own, x, y, 0)
    }
}

/// A boolean with no operands, whose x is below a limit.
const fn plain(versions: u8, limit: u8) -> Operator {
    Operator {
        limit,
        ..operator(versions, BOOLEAN, NONE, NONE, 1)
    }
}

const fn all() -> [Operator; 256] {
    let mut rows = [operator(NEVER, NONE, NONE, NONE, 0); 256];
    rows[CONSTANT as usize] = plain(BASE, 2);
    rows[SIGNAL as usize] = plain(BASE, 64);
    rows[BOOLEAN_NOT as usize] = operator(BASE, BOOLEAN, BOOLEAN, NONE, 1);
    rows[BOOLEAN_AND as usize] = operator(BASE, BOOLEAN, BOOLEAN, BOOLEAN, 1);
    rows[BOOLEAN_OR as usize] = operator(BASE, BOOLEAN, BOOLEAN, BOOLEAN, 1);
    rows[RISEN as usize] = plain(PAIRS, 64);
    rows[FALLEN as usize] = plain(PAIRS, 64);
    rows[LETTER as usize] = operator(BASE, SEQUENCE, BOOLEAN, NONE, 9);
    rows[THEN as usize] = operator(BASE, SEQUENCE, SEQUENCE, SEQUENCE, 1);
    rows[FUSED as usize] = operator(BASE, SEQUENCE, SEQUENCE, SEQUENCE, 1);
    rows[EITHER as usize] = operator(BASE, SEQUENCE, SEQUENCE, SEQUENCE, 1);
    rows[EMPTY as usize] = operator(BASE, SEQUENCE, SEQUENCE, NONE, 1);
    rows[REPEAT as usize] = operator(BASE, SEQUENCE, SEQUENCE, NONE, 1);
    rows[SEQUENCE_CLOCK as usize] = operator(BASE, SEQUENCE, BOOLEAN, SEQUENCE, 0);
    rows[STRONG as usize] = operator(BASE, PROPERTY, SEQUENCE, NONE, 1);
    rows[WEAK as usize] = operator(BASE, PROPERTY, SEQUENCE, NONE, 1);
    rows[NOT as usize] = operator(BASE, PROPERTY, PROPERTY, NONE, 1);
    rows[OR as usize] = operator(BASE, PROPERTY, PROPERTY, PROPERTY, 1);
    rows[AND as usize] = operator(BASE, PROPERTY, PROPERTY, PROPERTY, 1);
    rows[IMPLIES as usize] = operator(BASE, PROPERTY, SEQUENCE, PROPERTY, 1);
    rows[NEXTTIME as usize] = operator(BASE, PROPERTY, PROPERTY, NONE, 14);
    rows[UNTIL as usize] = operator(BASE, PROPERTY, PROPERTY, PROPERTY, 9);
    rows[PROPERTY_CLOCK as usize] = operator(BASE, PROPERTY, BOOLEAN, PROPERTY, 0);
    with_derived(rows)
}

const fn with_derived(mut rows: [Operator; 256]) -> [Operator; 256] {
    rows[TIMES as usize] = derived(SEQUENCE, SEQUENCE, NONE, Fourth::Bounds);
    rows[DELAY as usize] = derived(SEQUENCE, SEQUENCE, SEQUENCE, Fourth::Bounds);
    rows[GOTO as usize] = derived(SEQUENCE, BOOLEAN, NONE, Fourth::Count);
    rows[NONCONSECUTIVE as usize] = derived(SEQUENCE, BOOLEAN, NONE, Fourth::Count);
    rows[IMPLIES_NEXT as usize] = derived(PROPERTY, SEQUENCE, PROPERTY, Fourth::Zero);
    rows[FOLLOWED as usize] = derived(PROPERTY, SEQUENCE, PROPERTY, Fourth::Zero);
    rows[FOLLOWED_NEXT as usize] = derived(PROPERTY, SEQUENCE, PROPERTY, Fourth::Zero);
    rows[ALWAYS as usize] = derived(PROPERTY, PROPERTY, NONE, Fourth::Zero);
    rows[EVENTUALLY as usize] = derived(PROPERTY, PROPERTY, NONE, Fourth::Zero);
    rows[STRONG_UNTIL as usize] = derived(PROPERTY, PROPERTY, PROPERTY, Fourth::Zero);
    rows[STRONG_NEXTTIME as usize] = derived(PROPERTY, PROPERTY, NONE, Fourth::Zero);
    rows
}
