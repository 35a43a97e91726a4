//! What is known of a variable's code, by that code. It is asked for at each value of a waveform.
use std::collections::HashMap;

/// The bytes of a short code, at most. Writers count codes up, so that this many are enough for over
/// 800,000 variables.
const SHORT: usize = 3;
/// The bytes that a code may be of are `!` to `~`: as the digits 1 to 94 of a number to this base.
const BASE: usize = 95;

/// Something for each code: the default where nothing is put in. Short codes have a place of their
/// own, and only others are hashed.
pub struct Codes<'a, T> {
    short: Vec<T>,
    others: HashMap<&'a [u8], T>,
}

impl<'a, T: Copy + Default> Codes<'a, T> {
    /// Nothing for any code.
    pub fn new() -> Codes<'a, T> {
        Codes {
            short: vec![T::default(); BASE.pow(SHORT as u32)],
            others: HashMap::new(),
        }
    }

    /// Puts in what is known of a code.
    pub fn put(&mut self, code: &'a [u8], known: T) {
        match place(code).and_then(|place| self.short.get_mut(place)) {
            Some(short) => *short = known,
            None => {
                self.others.insert(code, known);
            }
        }
    }

    /// What is known of a code.
    pub fn get(&self, code: &[u8]) -> T {
        let known = match place(code) {
            Some(place) => self.short.get(place),
            None => self.others.get(code),
        };
        known.copied().unwrap_or_default()
    }
}

/// The place of a short code: no two have the same.
fn place(code: &[u8]) -> Option<usize> {
    let fits = code.len() <= SHORT && code.iter().all(u8::is_ascii_graphic);
    let digit = |byte: &u8| usize::from(byte.saturating_sub(b' '));
    fits.then(|| {
        code.iter()
            .fold(0, |place, byte| place * BASE + digit(byte))
    })
}

#[cfg(test)]
mod tests {
    use super::*;
    use std::collections::HashSet;

    /// 94 codes of one byte, 94 * 94 of two and 94 * 94 * 94 of three are 839,514, and one is empty.
    #[test]
    fn short_codes_have_places_of_their_own() {
        let mut codes = vec![Vec::new()];
        let mut longest = codes.clone();
        for _ in 0..SHORT {
            let longer = |code: &Vec<u8>| {
                let code = code.clone();
                (b'!'..=b'~').map(move |byte| [code.as_slice(), &[byte]].concat())
            };
            longest = longest.iter().flat_map(longer).collect();
            codes.extend(longest.iter().cloned());
        }
        let places: HashSet<usize> = codes.iter().map(|code| place(code).unwrap()).collect();
        assert_eq!((codes.len(), places.len()), (839_515, 839_515));
        assert!(places.iter().all(|place| *place < BASE.pow(SHORT as u32)));
    }

    #[test]
    fn each_code_has_its_own() {
        let written: [&[u8]; 8] = [b"!", b"!!", b"!!!", b"~~~", b"!!!!", b"\xff", b"\x01!", b""];
        let mut codes = Codes::new();
        for (number, code) in (1u8..).zip(written) {
            assert_eq!(codes.get(code), 0);
            codes.put(code, number);
        }
        let read = written.map(|code| codes.get(code));
        assert_eq!(read, [1, 2, 3, 4, 5, 6, 7, 8]);
        let others: [&[u8]; 3] = [b"~", b"!!!!!", b"\xfe"];
        assert_eq!(others.map(|code| codes.get(code)), [0; 3]);
    }
}
