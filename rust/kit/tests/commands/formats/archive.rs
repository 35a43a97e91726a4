//! Sessions of sigrok in archives made by hand.
use super::{told, AB, SMALL};
use crate::support::waves::{record, samples};
use crate::support::{kit, Folder};

#[test]
fn the_analog_channels_of_a_session_are_shown_and_not_recorded() {
    let folder = Folder::new();
    let metadata =
        "[device 1]\ncapturefile=logic-1\ntotal probes=1\nsamplerate=1 kHz\nunitsize=1\n\
                    total analog=1\nprobe1=D0\nanalog2=A0\n";
    let path = folder.file("w.sr", session(metadata, &[("logic-1-1", &[0, 0, 1])]));
    let said = kit(["signals", &path]);
    let expected = "2 variables; times are in units of 1 ms\nlibsigrok.D0  1        wire\n\
                    libsigrok.A0  -        real\n";
    assert_eq!((said.status, said.out.as_str()), (0, expected));
    let said = record(&folder, &path, &["--signals", "v=A0"]);
    let words = "libsigrok.A0 has no bits to record: it is declared as real of size 64";
    assert_eq!(said.err, format!("kit record: {path}: {words}\n"));
    let every = ["--signals", "d=D0", "--every", "1ms"];
    assert_eq!(record(&folder, &path, &every).status, 0);
    assert_eq!(samples(&folder), [0, 0, 1]);
}

/// A session with this metadata and these entries with samples, in an archive without packing.
fn session(metadata: &str, pieces: &[(&str, &[u8])]) -> Vec<u8> {
    let fixed: [(&str, &[u8]); 2] = [("version", b"2"), ("metadata", metadata.as_bytes())];
    archive(&[&fixed, pieces].concat())
}

/// A ZIP archive of these entries, not packed.
fn archive(entries: &[(&str, &[u8])]) -> Vec<u8> {
    let (mut bytes, mut directory) = (Vec::new(), Vec::new());
    for (name, data) in entries {
        let mut sum = flate2::Crc::new();
        sum.update(data);
        let size = (data.len() as u32).to_le_bytes();
        // the version, flags, method and date; the sum, both sizes, and the lengths of the texts
        let head = [
            &[20, 0, 0, 0, 0, 0, 0, 0, 0, 0][..],
            &sum.sum().to_le_bytes(),
            &size,
            &size,
            &(name.len() as u16).to_le_bytes(),
            &[0, 0],
        ]
        .concat();
        let at = (bytes.len() as u32).to_le_bytes();
        directory.extend(
            [
                b"PK\x01\x02\x14\0",
                &head[..],
                &[0; 10],
                &at,
                name.as_bytes(),
            ]
            .concat(),
        );
        bytes.extend([b"PK\x03\x04", &head[..], name.as_bytes(), data].concat());
    }
    let count = (entries.len() as u16).to_le_bytes();
    let size = (directory.len() as u32).to_le_bytes();
    let at = (bytes.len() as u32).to_le_bytes();
    let end = [
        b"PK\x05\x06\0\0\0\0",
        &count[..],
        &count,
        &size,
        &at,
        &[0, 0],
    ]
    .concat();
    [bytes, directory, end].concat()
}

const METADATA: &str =
    "[device 1]\ncapturefile=logic-1\nsamplerate=1 kHz\nunitsize=1\nprobe1=a\nprobe2=b\n";

#[test]
fn the_samples_of_a_session_may_be_in_one_entry_or_in_several() {
    let cases: [&[(&str, &[u8])]; 4] = [
        &[("logic-1", &[1, 2, 3])],
        &[("logic-1-1", &[1, 2, 3])],
        &[("logic-1-2", &[2, 3]), ("logic-1-1", &[1])],
        &[
            ("logic-1-1", &[1]),
            ("logic-1-2", &[]),
            ("logic-1-3", &[2, 3]),
        ],
    ];
    for pieces in cases {
        let folder = Folder::new();
        let path = folder.file("w.sr", session(METADATA, pieces));
        let said = record(&folder, &path, &["--signals", "a=a,b=b", "--every", "1ms"]);
        assert_eq!(said.status, 0, "{}", said.err);
        assert_eq!(samples(&folder), [1, 2, 3]);
    }
}

#[test]
fn a_session_that_is_not_whole_is_told() {
    let cannot = "this is a sigrok session (.sr), and it cannot be read:";
    let lost = [("logic-1-1", &[1][..]), ("logic-1-3", &[2])];
    told(
        &session(METADATA, &lost),
        &format!("{cannot} logic-1-2 is missing in it"),
    );
    let none = session(METADATA, &[("logic-2-1", &[1])]);
    told(
        &none,
        &format!("{cannot} its samples, logic-1, are missing in it"),
    );
    let wide = METADATA.replace("probe2", "probe9");
    let fits = "its metadata does not fit: channel 9, b, and unitsize=1";
    told(
        &session(&wide, &[("logic-1", &[1])]),
        &format!("{cannot} {fits}"),
    );
    let newer = archive(&[("version", b"3"), ("metadata", b"")]);
    told(&newer, &format!("{cannot} its version is not 1 or 2"));
    let other =
        "this is a ZIP archive and no sigrok session, for it has no version and metadata: if \
                 a waveform is in it, unpack it first";
    told(&archive(&[("w.vcd", SMALL.as_bytes())]), other);
    told(
        &archive(&[]),
        "this is an empty ZIP archive, and no waveform",
    );
}

#[test]
fn samples_that_end_inside_one_are_told() {
    let folder = Folder::new();
    let metadata = METADATA.replace("unitsize=1", "unitsize=2");
    let path = folder.file(
        "w.sr",
        session(&metadata, &[("logic-1-1", &[1, 0, 2, 0, 3])]),
    );
    let said = record(&folder, &path, &AB);
    let words = "this is a sigrok session (.sr), and it cannot be read: its samples end inside one";
    assert_eq!(
        (said.status, said.err),
        (4, format!("kit record: {path}: {words}\n"))
    );
    // what stands before --count is read
    let counted = [&AB[..], &["--count", "1"]].concat();
    assert_eq!(record(&folder, &path, &counted).status, 0);
    assert_eq!(samples(&folder), [1]);
}

/// The place of some bytes, the last where they stand twice.
fn place(bytes: &[u8], part: &[u8]) -> usize {
    bytes
        .windows(part.len())
        .rposition(|window| window == part)
        .unwrap()
}

#[test]
fn a_comment_may_end_an_archive() {
    let folder = Folder::new();
    let whole = session(METADATA, &[("logic-1-1", &[1, 2, 3])]);
    let mut bytes = whole.clone();
    let length = bytes.len();
    bytes[length - 2] = 5;
    let path = folder.file("w.sr", [&bytes, &b"hello"[..]].concat());
    assert_eq!(record(&folder, &path, &AB).status, 0);
    assert_eq!(samples(&folder), [1, 2, 3]);
    // one that is shorter or longer than it says is damage
    let damaged = "this is a ZIP archive, as a sigrok session is, and it ends early or is damaged:";
    let missing = format!("{damaged} the directory that ends an archive is not there");
    told(&[&bytes, &b"hell"[..]].concat(), &missing);
    told(&[&bytes, &b"hello!"[..]].concat(), &missing);
}

#[test]
fn entries_that_cannot_be_read_are_told() {
    let whole = session(METADATA, &[("logic-1-1", &[1, 2, 3])]);
    let changed = |mark: &[u8], after: usize, value: u8| {
        let mut bytes = whole.clone();
        let place = place(&bytes, mark);
        bytes[place + after] = value;
        bytes
    };
    let unread =
        "this is a ZIP archive whose logic-1-1 is encrypted or packed in a way that is not \
                  read: stored and deflated entries are";
    let damaged = "this is a ZIP archive, as a sigrok session is, and it ends early or is damaged:";
    let told = |bytes: &[u8], words: &str| {
        let folder = Folder::new();
        let path = folder.file("w.sr", bytes);
        let said = record(&folder, &path, &AB);
        assert_eq!(
            (said.status, said.err),
            (4, format!("kit record: {path}: {words}\n"))
        );
    };
    // in the directory: the flags, the method, the sum, the size, and where the last entry stands
    told(&changed(b"PK\x01\x02", 8, 1), unread);
    told(&changed(b"PK\x01\x02", 10, 12), unread);
    let sum = "logic-1-1 does not have the bytes that its sum is of";
    told(&changed(b"PK\x01\x02", 24, 4), &format!("{damaged} {sum}"));
    let long = "logic-1-1 is longer than its directory says";
    told(&changed(b"PK\x01\x02", 24, 2), &format!("{damaged} {long}"));
    let lost = "logic-1-1 is not where its directory says";
    told(&changed(b"PK\x01\x02", 45, 1), &format!("{damaged} {lost}"));
    told(
        &changed(b"PK\x03\x04", 0, b'Q'),
        &format!("{damaged} {lost}"),
    );
    told(&changed(&[1, 2, 3], 1, 0), &format!("{damaged} {sum}"));
    // in the end: how many entries there are
    let unreadable = format!("{damaged} its directory cannot be read");
    told(&changed(b"PK\x05\x06", 10, 4), &unreadable);
    let mut bytes = changed(b"PK\x05\x06", 10, 0xff);
    let place = place(&bytes, b"PK\x05\x06");
    bytes[place + 11] = 0xff;
    let large =
        "this is a ZIP archive in the 64-bit form, which is not read; sigrok-cli -i FILE -O \
                 vcd makes a VCD of a session";
    told(&bytes, large);
}
