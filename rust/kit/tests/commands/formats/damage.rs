//! Compressed waveforms that are torn or damaged: a message, or the right record.
use super::{gzip, AB, SMALL};
use crate::support::waves::{record, samples};
use crate::support::{example_bytes, kit, put, Folder};

/// Every beginning of a file, and the file with each byte changed to a few others. All of it is read,
/// so that a beginning never gives a record, and damage only the right one.
fn damage(name: &str, words: &[&str], expected: &[u64], named: &str) {
    let whole = example_bytes(name);
    let folder = Folder::new();
    let path = folder.path("bad");
    let mut right = 0;
    let mut run = |bytes: &[u8], case: &str| {
        put(path.as_ref(), bytes);
        let _ = std::fs::remove_file(folder.join("out.svw"));
        let said = record(&folder, &path, words);
        match said.status {
            0 => assert_eq!(samples(&folder), expected, "{case}"),
            // a gzip file is blamed and not the text in it, whatever the damage makes of that
            4 => {
                let begins = format!("kit record: {path}: this is a gzip file, and ");
                let gzip = bytes.starts_with(&[0x1f, 0x8b, 8]);
                let named = said.err.starts_with(&begins) || !gzip;
                assert!(named && said.err.contains(&path), "{case}: {}", said.err);
            }
            status => panic!("{case}: status {status}"),
        }
        right += usize::from(said.status == 0);
        assert!(matches!(kit(["signals", &path]).status, 0 | 4));
        said
    };
    for count in 0..whole.len() {
        let said = run(&whole[..count], &format!("{count} bytes of {name}"));
        assert_eq!(said.status, 4, "{count} bytes of {name}");
        assert!(count < 4 || said.err.contains(named), "{}", said.err);
    }
    for (place, byte) in whole.iter().enumerate() {
        for value in [byte ^ 1, byte ^ 0x80, 0, 0xff] {
            let mut bytes = whole.clone();
            bytes[place] = value;
            run(
                &bytes,
                &format!("{name} with byte {place} changed to {value}"),
            );
        }
    }
    // a byte that is changed to itself, and those that say nothing, such as a date
    assert!(right > 10, "{right}");
}

#[test]
fn a_damaged_gzip_file() {
    let words = [
        "--signals",
        "ack=bench.ack,drop=bench.drop,strobe=bench.strobe",
        "--on",
        "posedge bench.clk",
        "--from",
        "12ns",
    ];
    let expected = [0, 0, 0, 1, 2, 2, 2, 2, 2, 2];
    damage("waves/drive-lost.vcd.gz", &words, &expected, "gzip file");
}

#[test]
fn what_ends_early_is_told_from_what_is_damaged() {
    let whole = gzip(SMALL.as_bytes());
    let last = whole.len() - 1;
    let early = "it ends early: the rest of it is missing, or it is damaged";
    let cases = [
        (&whole[..3], early),
        (&whole[..60], early),
        // the sum and the length are eight bytes
        (&whole[..last - 7], early),
        (&whole[..last], early),
    ];
    for (bytes, words) in cases {
        told(bytes, words);
    }
    let mut changed = whole.clone();
    changed[last] ^= 1;
    told(
        &changed,
        "it is damaged: corrupt gzip stream does not have a matching checksum",
    );
    // a member that is none follows
    told(
        &[&whole, &b"hello, hello"[..]].concat(),
        "it is damaged: invalid gzip header",
    );
}

/// Asks for what `kit record` says of a gzip file.
#[track_caller]
fn told(bytes: &[u8], words: &str) {
    let folder = Folder::new();
    let path = folder.file("w.vcd.gz", bytes);
    let said = record(&folder, &path, &AB);
    let expected = format!("kit record: {path}: this is a gzip file, and {words}\n");
    assert_eq!((said.status, said.err), (4, expected));
}

#[test]
fn a_damaged_session() {
    let words = ["--signals", "ack=ack,drop=drop,strobe=strobe,busy=busy"];
    let expected = [0, 9, 8, 12, 0, 9, 8, 10, 2];
    damage("waves/logic.sr", &words, &expected, "ZIP archive");
}
