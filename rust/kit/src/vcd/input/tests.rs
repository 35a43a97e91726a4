//! The digest of a waveform's bytes as they are stored, however much of them was read.
use super::*;
use crate::sha256::of as whole;
use flate2::write::GzEncoder;
use flate2::Compression;
use std::io::Write;

const HEADER: &str = "$var wire 1 ! a $end $enddefinitions $end\n";

/// Opens what a stream gives, and reads so many words after the header.
fn opened(bytes: &[u8], words: usize) -> Opened {
    let source = of_stream(Cursor::new(bytes.to_vec()), None).unwrap();
    let mut opened = read_header(Path::new(STANDARD_INPUT), source).unwrap();
    for _ in 0..words {
        opened.tokens.token().unwrap();
    }
    opened
}

fn gzip(bytes: &[u8]) -> Vec<u8> {
    let mut encoder = GzEncoder::new(Vec::new(), Compression::none());
    encoder.write_all(bytes).unwrap();
    encoder.finish().unwrap()
}

/// The example of FIPS 180-2.
#[test]
fn the_digest_is_sha_256_in_hex() {
    let digest = Hashed::of(&b"abc"[..]).finish().unwrap();
    let expected = "ba7816bf8f01cfea414140de5dae2223b00361a396177a9cb410ff61f20015ad";
    assert_eq!(digest, expected);
}

#[test]
fn the_digest_is_of_all_bytes_wherever_reading_stopped() {
    // longer than what is read at once
    let text = format!("{HEADER}#0 0!\n{}", "#1 1!\n".repeat(50_000));
    for words in [0, 2, 200_000] {
        let digest = opened(text.as_bytes(), words).digest().unwrap();
        assert_eq!(digest, whole(text.as_bytes()));
        // of a gzip file those of the file, not of the text in it
        let packed = gzip(text.as_bytes());
        assert!(packed.len() > text.len());
        assert_eq!(opened(&packed, words).digest().unwrap(), whole(&packed));
    }
}

#[test]
fn the_digest_of_a_session_and_of_an_fst_is_of_the_file() {
    let examples = Path::new(env!("CARGO_MANIFEST_DIR")).join("../../examples/waves");
    let session = examples.join("logic.sr");
    let bytes = std::fs::read(&session).unwrap();
    assert_eq!(opened(&bytes, 3).digest().unwrap(), whole(&bytes));
    let mut session = open(&session).unwrap();
    session.tokens.token().unwrap();
    assert_eq!(session.digest().unwrap(), whole(&bytes));
    let fst = examples.join("drive-lost.fst");
    let stored = Stored::File(Arc::new(File::open(&fst).unwrap()));
    let bytes = std::fs::read(&fst).unwrap();
    assert_eq!(stored.digest().unwrap(), whole(&bytes));
}

#[test]
fn what_is_taken_into_memory_has_a_bound() {
    let taken = |bytes: &'static [u8]| Stored::in_memory(bytes, 4);
    let mut whole = taken(b"PK\x03\x04").unwrap();
    assert_eq!(whole.length().unwrap(), 4);
    let words = taken(b"PK\x03\x04\x05").err().unwrap().to_string();
    assert!(words.starts_with("this is a ZIP archive of over 256 MiB"));
}

#[test]
fn a_gzip_header_without_an_end_is_not_read_to_its_end() {
    // the mark, and the flag of a name, which ends with a 0
    let header = b"\x1f\x8b\x08\x08\0\0\0\0\0\x03";
    let endless = Cursor::new(header).chain(io::repeat(b'a'));
    let words = of_stream(endless, None).err().unwrap().to_string();
    assert!(
        words.ends_with("damaged: 16777216 bytes of it have no text"),
        "{words}"
    );
    // members without a text are passed over
    let members = [gzip(b"").repeat(50_000), gzip(HEADER.as_bytes())].concat();
    assert_eq!(opened(&members, 0).digest().unwrap(), whole(&members));
}

#[test]
fn what_a_file_says_of_itself_does_no_harm_in_a_message() {
    assert_eq!(told("a\x1b[31m\nb").to_string(), "a\u{fffd}[31m\u{fffd}b");
}
