//! The numbers of repetitions and delays: `[*m]`, `[*m:n]`, `[->m]`, `[=m]`, `##m` and `##[m:n]`.
use crate::assertion::Operator;

/// The most that a table's byte has room for.
pub const MOST: u8 = 15;

/// An operator with its fourth byte.
pub type Counted = (Operator, u8);

/// The operator of what stands between `[` and `]` after a part, without blanks; none where it is no
/// operator of the notation, and words where its numbers are not good.
pub fn repetition(inside: &str) -> Result<Option<Counted>, String> {
    let (operator, numbers) = match inside {
        "*0" => return Ok(Some((Operator::Empty, 0))),
        "*1:$" => return Ok(Some((Operator::Repeated, 0))),
        _ => match split(inside) {
            Some(found) => found,
            None => return Ok(None),
        },
    };
    match operator {
        Operator::Times => Ok(bounds(numbers)?.map(|(m, n)| (operator, m + 16 * n))),
        // b[->m:n] and b[=m:n] are left to the hints, whatever their numbers
        _ if numbers.contains(':') => Ok(None),
        _ => Ok(bounds(numbers)?.map(|(m, _)| (operator, m))),
    }
}

/// The operator by the sign before its numbers.
pub fn split(inside: &str) -> Option<(Operator, &str)> {
    let signs = [
        ("*", Operator::Times),
        ("->", Operator::Goto),
        ("=", Operator::Nonconsecutive),
    ];
    signs
        .into_iter()
        .find_map(|(sign, operator)| Some((operator, inside.strip_prefix(sign)?)))
}

/// The operator of what follows `##`, without blanks, as [`repetition`] answers it.
pub fn delay(after: &str) -> Result<Option<Counted>, String> {
    let inside = after.strip_prefix('[').and_then(|it| it.strip_suffix(']'));
    let numbers = match (after, inside) {
        ("1", _) => return Ok(Some((Operator::Then, 0))),
        ("0", _) => return Ok(Some((Operator::Fused, 0))),
        (_, Some(inside)) if !inside.contains(':') => return Ok(None),
        _ => inside.unwrap_or(after),
    };
    let delay = |(m, n)| (Operator::Delay, m + 16 * n);
    Ok(bounds(numbers)?.map(delay))
}

/// The numbers of `m` or `m:n`; none where they are no numbers, and words where they are not good.
fn bounds(text: &str) -> Result<Option<(u8, u8)>, String> {
    match pair(text) {
        // larger ones are left to the hints
        Some((m, Some(n))) if m.max(n) > MOST => Ok(None),
        Some((m, Some(n))) if m > n => Err(format!("{}: write {n}:{m}", backwards(m, n))),
        Some((m, Some(n))) => Ok(Some((m, n))),
        _ => Ok(None),
    }
}

/// The two numbers of `m:n`, of which the second is none for `$`; m alone is m:m. One that is vast is 255.
pub fn pair(text: &str) -> Option<(u8, Option<u8>)> {
    let (least, most) = text.split_once(':').unwrap_or((text, text));
    let number = |text: &str| {
        let digits = !text.is_empty() && text.bytes().all(|byte| byte.is_ascii_digit());
        digits.then(|| text.parse().unwrap_or(u8::MAX))
    };
    match most {
        "$" => Some((number(least)?, None)),
        _ => Some((number(least)?, Some(number(most)?))),
    }
}

/// The words for two numbers of which the first is above the second.
pub fn backwards(m: u8, n: u8) -> String {
    format!("{m} to {n} counts backwards")
}

#[cfg(test)]
mod tests {
    use super::*;

    fn repeated(inside: &str) -> Option<Counted> {
        repetition(inside).unwrap()
    }

    fn delayed(after: &str) -> Option<Counted> {
        delay(after).unwrap()
    }

    #[test]
    fn the_bases_own_stay() {
        assert_eq!(repeated("*0"), Some((Operator::Empty, 0)));
        assert_eq!(repeated("*1:$"), Some((Operator::Repeated, 0)));
        assert_eq!(delayed("1"), Some((Operator::Then, 0)));
        assert_eq!(delayed("0"), Some((Operator::Fused, 0)));
    }

    #[test]
    fn numbers_are_the_fourth_byte() {
        assert_eq!(repeated("*3"), Some((Operator::Times, 0x33)));
        assert_eq!(repeated("*2:5"), Some((Operator::Times, 0x52)));
        assert_eq!(repeated("*0:0"), Some((Operator::Times, 0)));
        assert_eq!(repeated("*15"), Some((Operator::Times, 0xff)));
        assert_eq!(repeated("->2"), Some((Operator::Goto, 2)));
        assert_eq!(repeated("=0"), Some((Operator::Nonconsecutive, 0)));
        assert_eq!(delayed("2"), Some((Operator::Delay, 0x22)));
        assert_eq!(delayed("[1:1]"), Some((Operator::Delay, 0x11)));
        assert_eq!(delayed("[0:4]"), Some((Operator::Delay, 0x40)));
    }

    #[test]
    fn other_forms_are_left_to_the_hints() {
        for inside in [
            "",
            "+",
            "*",
            "*0:$",
            "*2:$",
            "->1:2",
            "->2:1",
            "=1:99",
            "=1:$",
            "3",
            "*a",
            "*1:2:3",
            "*16",
            "*3:20",
            "->99999999999999999999",
        ] {
            assert_eq!(repeated(inside), None, "{inside}");
        }
        for after in ["", "[2]", "[1:$]", "[+]", "a", "16", "[20:3]"] {
            assert_eq!(delayed(after), None, "{after}");
        }
    }

    #[test]
    fn numbers_that_are_not_good_get_words() {
        assert_eq!(
            repetition("*5:4").unwrap_err(),
            "5 to 4 counts backwards: write 4:5"
        );
        assert_eq!(
            delay("[3:2]").unwrap_err(),
            "3 to 2 counts backwards: write 2:3"
        );
    }
}
