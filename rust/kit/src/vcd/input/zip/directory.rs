//! The directory of an archive: what its last bytes say, and the entries.
use super::super::stored::Stored;
use super::fields::Fields;
use super::{damaged, told};
use std::collections::HashMap;
use std::io;

/// The bytes that end an archive, without the comment that may follow them.
const END: usize = 22;
/// The bytes of that comment, at most.
const COMMENT: u64 = u16::MAX as u64;
/// The bytes of an entry in the directory, without its name and what follows that.
const HEAD: usize = 46;
/// The bytes of a directory, at most.
const MOST: usize = 1 << 24;

/// An entry.
pub struct Entry {
    /// How it is packed: 0 not at all, 8 deflated.
    pub method: u16,
    /// The sum of its bytes.
    pub sum: u32,
    /// How many bytes it has in the archive.
    pub packed: u64,
    /// How many bytes it has.
    pub size: u64,
    /// Where it stands.
    pub at: u64,
}

/// Reads the directory of an archive of this length.
pub fn read(stored: &mut Stored, length: u64) -> io::Result<HashMap<String, Entry>> {
    let missing = || damaged("the directory that ends an archive is not there");
    let count = length.min(COMMENT.saturating_add(END as u64));
    let last = stored.bytes_at(length.saturating_sub(count), count as usize)?;
    let (count, size, at) = ending(&last).ok_or_else(missing)?;
    if count == u16::MAX || size == u32::MAX || at == u32::MAX {
        return Err(told(
            "this is a ZIP archive in the 64-bit form, which is not read; sigrok-cli -i FILE -O vcd \
             makes a VCD of a session",
        ));
    }
    let (at, size) = (u64::from(at), size as usize);
    if at.saturating_add(size as u64) > length || size > MOST {
        return Err(missing());
    }
    let bytes = stored.bytes_at(at, size)?;
    entries(&bytes, count.into()).ok_or_else(|| damaged("its directory cannot be read"))
}

/// How many entries there are, and the size and the place of the directory, by the last bytes.
fn ending(last: &[u8]) -> Option<(u16, u32, u32)> {
    let places = (0..=last.len().checked_sub(END)?).rev();
    let mut ends = places.filter_map(|place| {
        let end = Fields(last.get(place..)?);
        let comment = usize::from(end.u16(20)?);
        let whole = end.begins(b"PK\x05\x06") && end.0.len() == END.checked_add(comment)?;
        whole.then_some(end)
    });
    let end = ends.next()?;
    Some((end.u16(10)?, end.u32(12)?, end.u32(16)?))
}

/// The entries of a directory by their names, where it has as many as it should, each once.
fn entries(bytes: &[u8], count: usize) -> Option<HashMap<String, Entry>> {
    let (mut entries, mut rest) = (HashMap::new(), bytes);
    for _ in 0..count {
        let (name, entry, length) = entry(Fields(rest))?;
        rest = rest.get(length..)?;
        if entries.insert(name, entry).is_some() {
            return None;
        }
    }
    Some(entries)
}

/// The name and the entry that the directory begins with, and the bytes that they take there.
fn entry(head: Fields) -> Option<(String, Entry, usize)> {
    let letters = usize::from(head.u16(28)?);
    let (extra, comment) = (head.u16(30)?, head.u16(32)?);
    let length = HEAD + letters + usize::from(extra) + usize::from(comment);
    let name = String::from_utf8_lossy(head.bytes(HEAD, letters)?).into_owned();
    let entry = Entry {
        method: match head.u16(8)? & 1 {
            0 => head.u16(10)?,
            // what is encrypted cannot be unpacked by any method
            _ => u16::MAX,
        },
        sum: head.u32(16)?,
        packed: head.u32(20)?.into(),
        size: head.u32(24)?.into(),
        at: head.u32(42)?.into(),
    };
    head.begins(b"PK\x01\x02").then_some((name, entry, length))
}
