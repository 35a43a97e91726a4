//! The value of one bit in a waveform.
use std::fmt;

/// A bit's value.
#[derive(Clone, Copy, Debug, PartialEq, Eq)]
pub enum Bit {
    /// 0, or VHDL's L.
    Zero,
    /// 1, or VHDL's H.
    One,
    /// x, z, or VHDL's U, W and -.
    Unknown(char),
    /// Not dumped: after `$dumpoff`.
    Off,
    /// No value was given yet.
    Nothing,
}

impl Bit {
    /// The bit that a digit stands for.
    pub fn of(digit: u8) -> Option<Bit> {
        match digit {
            b'0' | b'L' | b'l' => Some(Bit::Zero),
            b'1' | b'H' | b'h' => Some(Bit::One),
            b'x' | b'X' | b'z' | b'Z' | b'U' | b'u' | b'W' | b'w' | b'-' => {
                Some(Bit::Unknown(char::from(digit)))
            }
            _ => None,
        }
    }

    /// The bit at a place, counted from 0 at the right, of a value that may have lost digits at the
    /// left: they are 0, or unknown where the leftmost digit is.
    pub fn at(digits: &[u8], place: usize) -> Option<Bit> {
        let index = digits.len().checked_sub(1)?.checked_sub(place);
        match index {
            Some(index) => Bit::of(*digits.get(index)?),
            None => match Bit::of(*digits.first()?)? {
                Bit::Zero | Bit::One => Some(Bit::Zero),
                unknown => Some(unknown),
            },
        }
    }

    /// Whether it is 1, where that is known.
    pub fn known(self) -> Option<bool> {
        match self {
            Bit::Zero => Some(false),
            Bit::One => Some(true),
            Bit::Unknown(_) | Bit::Off | Bit::Nothing => None,
        }
    }
}

/// What a message says after `is`.
impl fmt::Display for Bit {
    fn fmt(&self, f: &mut fmt::Formatter<'_>) -> fmt::Result {
        match self {
            Bit::Zero => f.write_str("0"),
            Bit::One => f.write_str("1"),
            Bit::Unknown(digit) => write!(f, "{digit}"),
            Bit::Off => f.write_str("not dumped ($dumpoff)"),
            Bit::Nothing => f.write_str("without a value yet"),
        }
    }
}

#[cfg(test)]
mod tests {
    use super::*;

    #[test]
    fn every_digit_has_its_meaning() {
        let known = |digits: &str| -> Vec<Option<bool>> {
            digits
                .bytes()
                .map(|b| Bit::of(b).unwrap().known())
                .collect()
        };
        assert_eq!(known("0Ll"), [Some(false); 3]);
        assert_eq!(known("1Hh"), [Some(true); 3]);
        assert_eq!(known("xXzZuUwW-"), [None; 9]);
        let others = (0..=255u8).filter(|byte| Bit::of(*byte).is_some());
        assert_eq!(others.count(), 15);
    }

    /// IEEE 1364-2005, table 18-1: a short value is extended by 0, or by x or z where it begins so.
    #[test]
    fn a_short_value_is_extended_at_the_left() {
        let value = |digits: &[u8]| -> Vec<Option<bool>> {
            let bits = (0..4).rev().map(|place| Bit::at(digits, place).unwrap());
            bits.map(Bit::known).collect()
        };
        let (zero, one, x) = (Some(false), Some(true), None);
        assert_eq!(value(b"10"), [zero, zero, one, zero]);
        assert_eq!(value(b"1"), [zero, zero, zero, one]);
        assert_eq!(value(b"x1"), [x, x, x, one]);
        assert_eq!(value(b"Z"), [x; 4]);
        assert_eq!(value(b"0x10"), [zero, x, one, zero]);
        assert_eq!(value(b"0x"), [zero, zero, zero, x]);
        assert_eq!(value(b"H0"), [zero, zero, one, zero]);
        assert_eq!(Bit::at(b"", 0), None);
    }
}
