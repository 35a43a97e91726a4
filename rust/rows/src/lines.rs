//! What the one pass over the nodes of a table in order asks of each operator, made of the operators' table when this is compiled.
use crate::operators::*;
use crate::tops::{asked, base_flags};

/// What an operator asks of its node, so that each question is one operation on words.
#[derive(Clone, Copy)]
pub struct Line {
    /// The bits of the node's four bytes, the first lowest, that are 0: bytes that are no operands, beyond what they may count to.
    pub zeros: u32,
    /// The flags of the node for refusal 9, two bits for each of the sixteen pairs of its operands' flags.
    pub flags: u32,
    /// The sorts that the operands may have, a bit for each of the sixteen pairs: of all, where a byte is no operand, and of none for an unknown operator.
    pub pairs: u16,
    /// The node's own sort.
    pub own: u8,
    /// How many places of sequences and properties there are in x and in y, 0 or 1.
    pub places: [u8; 2],
    /// How many more of these places there are than the node itself is sequences or properties, by wrapping round.
    pub more_places: u8,
    /// The flags that are asked of x.
    pub asked: u8,
    /// `CLOCK` for a clock node, and `DERIVED` for one whose fourth byte counts for the flags too.
    pub kind: u8,
}

/// The versions, 1 to 3, each with a line for every byte.
pub static LINES: [[Line; 256]; 4] = [lines(0), lines(1), lines(2), lines(3)];

const fn lines(version: u8) -> [Line; 256] {
    let mut out = [line(version, 0); 256];
    let mut op = 0;
    while op < 256 {
        out[op] = line(version, op as u8);
        op += 1;
    }
    out
}

const fn line(version: u8, op: u8) -> Line {
    let operator = OPERATORS_BY_BYTE[op as usize];
    let known = operator.is_known(version);
    let places = [
        (operator.x >= SEQUENCE) as u8,
        (operator.y >= SEQUENCE) as u8,
    ];
    let own = (operator.own >= SEQUENCE) as u8;
    Line {
        zeros: zeros(operator),
        flags: flags(op),
        pairs: if known { pairs(operator) } else { 0 },
        own: operator.own,
        places,
        more_places: (places[0] + places[1]).wrapping_sub(own),
        asked: asked(op),
        kind: kind(op, operator),
    }
}

/// The kinds that the pass over the nodes asks for.
pub const CLOCK: u8 = 1;
pub const DERIVED: u8 = 2;

const fn kind(op: u8, operator: Operator) -> u8 {
    match op {
        SEQUENCE_CLOCK | PROPERTY_CLOCK => CLOCK,
        _ if operator.is_known(3) && !operator.is_known(2) => DERIVED,
        _ => 0,
    }
}

/// A line is sixteen bytes, so that it is found by one shift.
const _: () = assert!(size_of::<Line>() == 16);

/// The limits of bytes that are no operands are powers of two.
const fn zeros(operator: Operator) -> u32 {
    let x = if operator.x == NONE {
        !(operator.limit - 1)
    } else {
        0
    };
    let y = if operator.y == NONE { 0xff } else { 0 };
    let fourth = match operator.fourth {
        Fourth::Zero => 0xff,
        Fourth::Count => 0xf0,
        Fourth::Bounds => 0,
    };
    u32::from_le_bytes([0, x, y, fourth])
}

const fn pairs(operator: Operator) -> u16 {
    let mut out = 0;
    let mut pair = 0;
    while pair < 16 {
        let (x, y) = (pair as u8 & 3, pair as u8 >> 2);
        let x_fits = operator.x == NONE || operator.x == x;
        let y_fits = operator.y == NONE || operator.y == y;
        if x_fits && y_fits {
            out |= 1 << pair;
        }
        pair += 1;
    }
    out
}

const fn flags(op: u8) -> u32 {
    let mut out = 0;
    let mut pair = 0;
    while pair < 16 {
        let own = base_flags(op, pair as u8 & 3, pair as u8 >> 2);
        out |= (own as u32) << (2 * pair);
        pair += 1;
    }
    out
}
