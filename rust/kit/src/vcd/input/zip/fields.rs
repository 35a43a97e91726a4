//! The numbers of an archive, little-endian.

/// Bytes with numbers in them.
#[derive(Clone, Copy)]
pub struct Fields<'a>(pub &'a [u8]);

impl<'a> Fields<'a> {
    /// Whether they begin so.
    pub fn begins(self, mark: &[u8]) -> bool {
        self.0.starts_with(mark)
    }

    /// The number in the two bytes at a place.
    pub fn u16(self, at: usize) -> Option<u16> {
        let bytes = self.bytes(at, 2)?;
        bytes.try_into().ok().map(u16::from_le_bytes)
    }

    /// The number in the four bytes at a place.
    pub fn u32(self, at: usize) -> Option<u32> {
        let bytes = self.bytes(at, 4)?;
        bytes.try_into().ok().map(u32::from_le_bytes)
    }

    /// So many bytes at a place.
    pub fn bytes(self, at: usize, count: usize) -> Option<&'a [u8]> {
        self.0.get(at..at.checked_add(count)?)
    }
}
