//! The blocks of an FST: each has its kind in one byte and then its length in eight, the highest
//! first, which counts itself and what follows. By them a file that was torn is told from a whole one.
use super::super::stored::Stored;
use super::told;
use std::io;

/// The blocks of a file, at most.
const MOST: usize = 1 << 20;
/// The bytes of a block's kind and length.
const HEAD: usize = 9;
/// A block that is compressed, with a whole FST inside.
const WRAPPER: u8 = 254;

/// Asks that the file ends where a block ends, and has those with the sizes and the names of the
/// variables, which are written last.
pub fn check(stored: &mut Stored) -> io::Result<()> {
    let length = stored.length()?;
    let (mut at, mut kinds) = (0, Vec::new());
    while at < length {
        let (kind, end) = block(stored, at, length)?;
        kinds.push(kind);
        at = end;
        if kinds.len() > MOST {
            return Err(told("this is an FST, and it is damaged: it has no end"));
        }
    }
    let has = |wanted: &[u8]| kinds.iter().any(|kind| wanted.contains(kind));
    match has(&[WRAPPER]) || has(&[3]) && has(&[4, 6, 7]) {
        true => Ok(()),
        false => Err(told(
            "this is an FST, and it ends early: the names of its variables, which are written last, \
             are missing",
        )),
    }
}

/// The kind of the block at a place, and where it ends.
fn block(stored: &mut Stored, at: u64, length: u64) -> io::Result<(u8, u64)> {
    let torn = || {
        told("this is an FST, and it ends early or is damaged: its last block is not there as a whole")
    };
    if length.saturating_sub(at) < HEAD as u64 {
        return Err(torn());
    }
    let head = stored.bytes_at(at, HEAD)?;
    let (kind, count) = head.split_first().unwrap_or((&0, &[]));
    let count = count.try_into().map(u64::from_be_bytes).unwrap_or_default();
    let end = at.checked_add(1).and_then(|at| at.checked_add(count));
    match end.filter(|end| *end <= length && count >= 8) {
        Some(end) => Ok((*kind, end)),
        None => Err(torn()),
    }
}

#[cfg(test)]
mod tests {
    use super::*;
    use std::io::Cursor;

    fn checked(bytes: &[u8]) -> Result<(), String> {
        let mut stored = Stored::Memory(Cursor::new(bytes.into()));
        check(&mut stored).map_err(|error| error.to_string())
    }

    /// A block of a kind with so many bytes inside.
    fn block(kind: u8, inside: u64) -> Vec<u8> {
        let length = (8 + inside).to_be_bytes();
        [&[kind], &length[..], &vec![7; inside as usize]].concat()
    }

    #[test]
    fn a_file_is_whole_where_its_last_block_is() {
        for hierarchy in [4, 6, 7] {
            let whole = [block(0, 321), block(8, 5), block(3, 0), block(hierarchy, 2)].concat();
            assert_eq!(checked(&whole), Ok(()));
            for count in 0..whole.len() {
                let words = checked(&whole[..count]).unwrap_err();
                assert!(words.starts_with("this is an FST, and it ends early"));
            }
        }
        let wrapped = block(254, 30);
        assert_eq!(checked(&wrapped), Ok(()));
        assert!(checked(&wrapped[..38]).is_err());
    }

    #[test]
    fn lengths_that_cannot_be_are_told() {
        // a block of length 7 does not have its own length, and one of the longest length no end
        for length in [0, 7, u64::MAX, u64::MAX - 8] {
            let bytes = [&[0][..], &length.to_be_bytes(), &[0; 9]].concat();
            let words = checked(&bytes).unwrap_err();
            assert!(words.contains("its last block is not there as a whole"));
        }
        let endless = block(1, 0).repeat(MOST + 1);
        assert!(checked(&endless).unwrap_err().contains("it has no end"));
    }
}
