//! What a waveform is stored as: a VCD, a gzip file, a session of sigrok, an FST, on a disk or from
//! standard input. `waveforms.rs` has the samples of the stored ones, worked out by hand.
mod archive;
mod damage;
mod fst;
mod input;

use crate::support::waves::{record, samples};
use crate::support::{example_bytes, kit, Folder};
use flate2::write::GzEncoder;
use flate2::Compression;
use std::io::Write;

/// A waveform with a at 0, then b at 5 ns, both at 7 ns: the samples are 1, 2 and 3.
pub const SMALL: &str = "$timescale 1ns $end $var wire 1 ! a $end $var wire 1 \" b $end \
                         $enddefinitions $end\n#0 1! 0\"\n#5 0! 1\"\n#7 1!\n";
pub const AB: [&str; 2] = ["--signals", "a=a,b=b"];

/// One member of a gzip file.
pub fn gzip(bytes: &[u8]) -> Vec<u8> {
    let mut encoder = GzEncoder::new(Vec::new(), Compression::best());
    encoder.write_all(bytes).unwrap();
    encoder.finish().unwrap()
}

/// Asks that `kit signals` and `kit record` on these bytes give this message.
#[track_caller]
fn told(bytes: &[u8], words: &str) {
    let folder = Folder::new();
    let path = folder.file("w.vcd", bytes);
    let said = kit(["signals", &path]);
    let expected = format!("kit signals: {path}: {words}\n");
    assert_eq!((said.status, said.err), (4, expected));
    let said = record(&folder, &path, &AB);
    let expected = format!("kit record: {path}: {words}\n");
    assert_eq!((said.status, said.err), (4, expected));
    assert!(!folder.join("out.svw").exists());
}

#[test]
fn a_gzip_file_may_have_several_members() {
    let folder = Folder::new();
    // in any place, also inside a word
    for place in [0, 1, 60, 100, SMALL.len()] {
        let (first, second) = SMALL.as_bytes().split_at(place);
        let bytes = [gzip(first), gzip(b""), gzip(second)].concat();
        // what a file is called does not matter
        let path = folder.file("w.fst", bytes);
        let said = record(&folder, &path, &AB);
        assert_eq!(said.status, 0, "{}", said.err);
        assert_eq!(samples(&folder), [1, 2, 3]);
    }
}

#[test]
fn a_mistake_in_a_gzip_file_has_the_line_of_the_text() {
    let folder = Folder::new();
    let path = folder.file("w.vcd.gz", gzip(format!("{SMALL}#6\n").as_bytes()));
    let said = record(&folder, &path, &AB);
    let expected = format!("kit record: {path}:5: the time goes back from #7 to #6\n");
    assert_eq!((said.status, said.err), (4, expected));
}

#[test]
fn what_is_no_waveform_is_named() {
    told(b"", "this is an empty file, and no waveform");
    let table = example_bytes("flush.svt");
    told(
        &table,
        "this is a table (.svt), and no waveform; kit show shows it",
    );
    let record = example_bytes("flush.svw");
    told(
        &record,
        "this is a record (.svw), and no waveform; kit show shows it",
    );
    let unpack = "and no waveform as it stands: unpack it first";
    told(b"\xfd7zXZ\0\0", &format!("this is an xz file, {unpack}"));
    told(b"BZh91AY", &format!("this is a bzip2 file, {unpack}"));
    told(
        b"\x28\xb5\x2f\xfd",
        &format!("this is a zstd file, {unpack}"),
    );
    let utf = "this is a text in UTF-16, and no waveform as it stands: save it as UTF-8";
    told(b"\xff\xfe$\0d\0", utf);
    told(b"\xfe\xff\0$\0d", utf);
    let ghw = "this is a GHW file of ghdl, and no waveform; ghdl -r UNIT --vcd=FILE writes a VCD";
    told(b"GHDLwave\n\0", ghw);
}

#[test]
fn what_is_in_a_gzip_file_is_named() {
    let told = |inside: &[u8], what: &str| {
        let words = format!(
            "this is a gzip file, and inside is {what}: only a VCD is read from a gzip file, so \
             unpack it with gunzip first if that is a waveform"
        );
        told(&gzip(inside), &words);
    };
    told(b"", "an empty file");
    told(&example_bytes("flush.svw"), "a record (.svw)");
    told(&example_bytes("flush.svt"), "a table (.svt)");
    told(&gzip(SMALL.as_bytes()), "a gzip file");
    told(&example_bytes("waves/logic.sr"), "a ZIP archive");
    told(&example_bytes("waves/drive-lost.fst"), "an FST");
    let folder = Folder::new();
    let path = folder.file("w.vcd.gz", gzip(b"hello\n"));
    let said = kit(["signals", &path]);
    assert_eq!(said.status, 4);
    let words = format!("kit signals: {path}:1: a section such as $timescale or $var is expected, and here stands hello");
    assert!(said.err.starts_with(&words), "{}", said.err);
}
