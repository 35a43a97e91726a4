//! How tightly the operators bind, from the loosest.

/// `@(c) X`, `always P`, `s_eventually P`, which reach as far right as they can.
pub const CLOCK: u8 = 0;
/// `R |-> P`, `R |=> P`, `R #-# P`, `R #=# P`
pub const IMPLIES: u8 = 1;
/// `P until P`, `P s_until P`
pub const UNTIL: u8 = 2;
/// `X or X`
pub const OR: u8 = 3;
/// `P and P`
pub const AND: u8 = 4;
/// `not P`, `nexttime P`, `s_nexttime P`
pub const PREFIX: u8 = 5;
/// `R ##1 R`, `R ##0 R`, `R ##3 R`, `R ##[m:n] R`
pub const DELAY: u8 = 6;
/// `b | b`
pub const EITHER: u8 = 7;
/// `b & b`
pub const BOTH: u8 = 8;
/// `!b`
pub const NEGATION: u8 = 9;
/// `R[*0]`, `R[*1:$]`, `R[*m:n]`, `b[->m]`, `b[=m]`
pub const REPETITION: u8 = 10;
/// Names, constants, `rose(a)`, `fell(a)`, `strong(R)`, `weak(R)` and what stands in parentheses.
pub const PRIMARY: u8 = 11;
