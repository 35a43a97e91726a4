//! What a file is, by its first bytes. Its name says nothing.

/// What a file is.
#[derive(Clone, Copy, Debug, PartialEq, Eq)]
pub enum Kind {
    /// A VCD, or something that no mark is known of.
    Text,
    /// A gzip file.
    Gzip,
    /// A ZIP archive, as a sigrok session is.
    Zip,
    /// A waveform of GTKWave.
    Fst,
    /// Something that is no waveform that can be read: what it is, and what to do about it.
    Other(&'static str, &'static str),
}

const GHW: &str = "; ghdl -r UNIT --vcd=FILE writes a VCD";
const SHOWN: &str = "; kit show shows it";
const UNPACK: &str = " as it stands: unpack it first";
const UTF_16: &str = " as it stands: save it as UTF-8";

/// Files that begin so.
const MARKS: [(&[u8], Kind); 12] = [
    (b"\x1f\x8b", Kind::Gzip),
    (b"PK\x03\x04", Kind::Zip),
    (b"PK\x05\x06", Kind::Other("an empty ZIP archive", "")),
    // a header block of the one length that it has
    (b"\0\0\0\0\0\0\0\x01\x49", Kind::Fst),
    (b"SVT", Kind::Other("a table (.svt)", SHOWN)),
    (b"SVW", Kind::Other("a record (.svw)", SHOWN)),
    (b"GHDLwave", Kind::Other("a GHW file of ghdl", GHW)),
    (b"\xfd7zXZ\0", Kind::Other("an xz file", UNPACK)),
    (b"BZh", Kind::Other("a bzip2 file", UNPACK)),
    (b"\x28\xb5\x2f\xfd", Kind::Other("a zstd file", UNPACK)),
    (b"\xff\xfe", Kind::Other("a text in UTF-16", UTF_16)),
    (b"\xfe\xff", Kind::Other("a text in UTF-16", UTF_16)),
];

impl Kind {
    /// What a file is that begins with these bytes, which are all where it is shorter than they could
    /// be.
    pub fn of(beginning: &[u8]) -> Kind {
        if beginning.is_empty() {
            return Kind::Other("an empty file", "");
        }
        if wrapped_fst(beginning) {
            return Kind::Fst;
        }
        let mark = MARKS.iter().find(|(mark, _)| beginning.starts_with(mark));
        mark.map_or(Kind::Text, |(_, kind)| *kind)
    }

    /// What it is called in a message.
    pub fn what(self) -> &'static str {
        match self {
            Kind::Text => "a text",
            Kind::Gzip => "a gzip file",
            Kind::Zip => "a ZIP archive",
            Kind::Fst => "an FST",
            Kind::Other(what, _) => what,
        }
    }
}

/// Whether it is an FST that is compressed as a whole: the block 254, its length and that of what is
/// in it, eight bytes each, and then gzip's mark.
fn wrapped_fst(beginning: &[u8]) -> bool {
    let gzip = beginning.get(17..).unwrap_or_default();
    beginning.first() == Some(&254) && gzip.starts_with(b"\x1f\x8b")
}

#[cfg(test)]
mod tests {
    use super::*;

    #[test]
    fn the_first_bytes_say_what_a_file_is() {
        let wrapped = [&[254][..], &[0; 16], b"\x1f\x8b\x08"].concat();
        let cases: [(&[u8], &str); 12] = [
            (b"", "an empty file"),
            (b"\x1f\x8b\x08", "a gzip file"),
            (b"PK\x03\x04\x14", "a ZIP archive"),
            // 329 is 1 * 256 + 73
            (&[0, 0, 0, 0, 0, 0, 0, 1, 73, 0], "an FST"),
            (&wrapped, "an FST"),
            (b"SVT\x01\0\x01", "a table (.svt)"),
            (b"SVW\x01\0\0", "a record (.svw)"),
            (b"$date today $end", "a text"),
            // beginnings of marks, and a block of another length
            (b"\x1f", "a text"),
            (b"PK\x03", "a text"),
            (&[0, 0, 0, 0, 0, 0, 0, 1, 72, 0], "a text"),
            (&[254, 0, 0, 0, 0, 0, 0, 0, 1], "a text"),
        ];
        for (beginning, what) in cases {
            assert_eq!(Kind::of(beginning).what(), what, "{beginning:?}");
        }
    }
}
