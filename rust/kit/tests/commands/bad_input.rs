//! Every command on bad files of every kind. Whatever a file holds, the command comes back, says what
//! is wrong with one of its own statuses, and leaves no half of an answer; what the proved library
//! says of the same bytes is what the command says.
mod bench;
mod forms;
mod random;

use crate::support::{example_bytes, examples_ending, kit, kit_to, Failing, Random};
use bench::{on_bench, Bench};
use forms::{forms, good, text, writing_forms, Kind, FORMS, KINDS, WAVEFORM};
use random::{CHANGES, NOTATION};
use std::fs;
use std::io::ErrorKind;
use std::os::unix::fs::symlink;
use std::path::Path;

/// Every beginning of the good bytes, and every byte of them changed to a few others.
fn damage(bench: &mut Bench, kind: Kind, name: &str, good: &[u8], values: &[u8]) {
    for count in 0..=good.len() {
        let case = format!("{count} bytes of {name}");
        bench.try_bytes(kind, &case, &good[..count]);
    }
    for (place, byte) in good.iter().enumerate() {
        let flipped = [byte ^ 1, byte ^ 0x80];
        for value in flipped.iter().chain(values) {
            let mut bytes = good.to_vec();
            bytes[place] = *value;
            let case = format!("{name} with byte {place} changed to {value}");
            bench.try_bytes(kind, &case, &bytes);
        }
    }
    for more in [1, 8, 1000] {
        let bytes = [good, &vec![0; more]].concat();
        bench.try_bytes(kind, &format!("{name} and {more} bytes"), &bytes);
    }
}

#[test]
fn damaged_tables() {
    on_bench(|bench| {
        for name in examples_ending(".svt") {
            damage(bench, Kind::Table, &name, &example_bytes(&name), &[0, 40]);
        }
    });
}

#[test]
fn damaged_records() {
    on_bench(|bench| {
        for name in examples_ending(".svw") {
            damage(bench, Kind::Record, &name, &example_bytes(&name), &[0]);
        }
    });
}

#[test]
fn damaged_texts() {
    on_bench(|bench| {
        for name in ["flush.svt", "p10.svt", "rise.svt"] {
            let text = text(name);
            damage(bench, Kind::Text, name, text.as_bytes(), b"(9");
        }
    });
}

#[test]
fn damaged_waveforms() {
    on_bench(|bench| {
        damage(
            bench,
            Kind::Waveform,
            "a waveform",
            WAVEFORM.as_bytes(),
            b"#x",
        );
    });
}

#[test]
fn the_good_files_are_good() {
    on_bench(|bench| {
        bench.try_bytes(Kind::Table, "a table", &example_bytes("flush.svt"));
        bench.try_bytes(Kind::Record, "a record", &example_bytes("flush.svw"));
        for (kind, bytes) in [
            (Kind::Text, text("flush.svt").into_bytes()),
            (Kind::Waveform, WAVEFORM.as_bytes().to_vec()),
        ] {
            fs::write(bench.path(kind.file()), &bytes).unwrap();
            for form in forms(kind) {
                assert_eq!(kit(bench.words(form)).status, 0, "{form:?}");
            }
        }
    });
}

#[test]
fn random_files() {
    on_bench(|bench| {
        let mut random = Random(0x5eed);
        for round in 0..150 {
            let bytes = random.bytes(5 * round);
            for kind in KINDS {
                bench.try_bytes(kind, &format!("random file {round}"), &bytes);
            }
            let name = format!("random case {round}");
            let table = random.table();
            bench.try_bytes(Kind::Table, &format!("{name}: {table:?}"), &table);
            bench.try_bytes(Kind::Record, &name, &random.record());
            let text = random.words(&NOTATION);
            bench.try_bytes(Kind::Text, &format!("{name}: {text:?}"), &text);
            let changes = random.words(&CHANGES);
            bench.try_bytes(Kind::Waveform, &name, &changes);
            let head = WAVEFORM.split("#5").next().unwrap().as_bytes();
            let whole = [head, &changes].concat();
            bench.try_bytes(Kind::Waveform, &format!("{name}, with a head"), &whole);
        }
    });
}

#[test]
fn huge_files() {
    on_bench(|bench| {
        for byte in *b"(#!a 1\n\xff" {
            let bytes = vec![byte; 3 << 20];
            for kind in KINDS {
                bench.try_bytes(kind, &format!("3 MiB of {byte}"), &bytes);
            }
        }
        // just below the longest text, so that it is read whole
        for part in [
            "(",
            "!",
            "not ",
            "strong(",
            "a ##1 ",
            "@(a) ",
            "signals a=0\n",
            "é",
            "# ",
        ] {
            let text = part.repeat((1 << 20) / part.len());
            bench.try_bytes(
                Kind::Text,
                &format!("a mebibyte of {part}"),
                text.as_bytes(),
            );
        }
        for part in [
            "$scope module a $end\n",
            "$var wire 1 ! a $end\n",
            "#1\n",
            "b1",
            "$comment ",
        ] {
            let text = part.repeat((2 << 20) / part.len());
            bench.try_bytes(Kind::Waveform, &format!("much of {part}"), text.as_bytes());
        }
        for kind in KINDS {
            let file = fs::File::create(bench.path(kind.file())).unwrap();
            file.set_len(64 << 20).unwrap();
            // the library needs the first bytes alone
            for form in forms(kind) {
                bench.try_form(form, "64 MiB of nothing", Some(&[0; 1000]));
            }
        }
    });
}

/// Puts something else where the bad file of each kind stands, and tries every form.
fn instead(name: &'static str, put: fn(&Path), bytes: Option<&'static [u8]>) {
    on_bench(move |bench| {
        for form in FORMS {
            let path = bench.path(form.0.file());
            if fs::symlink_metadata(&path).is_err() {
                put(&path);
            }
            bench.try_form(form, name, bytes);
        }
    });
}

#[test]
fn missing_files() {
    instead("a missing file", |_| {}, None);
}

#[test]
fn links_to_nowhere() {
    instead(
        "a lost link",
        |path| symlink("nowhere", path).unwrap(),
        None,
    );
}

#[test]
fn links_in_a_circle() {
    let put = |path: &Path| symlink(path.file_name().unwrap(), path).unwrap();
    instead("a circle", put, None);
}

#[test]
fn endless_files() {
    let put = |path: &Path| symlink("/dev/zero", path).unwrap();
    instead("an endless file", put, Some(&[0; 1000]));
}

#[test]
fn empty_devices() {
    let put = |path: &Path| symlink("/dev/null", path).unwrap();
    instead("an empty device", put, Some(&[]));
}

#[test]
fn folders_for_files() {
    on_bench(|bench| {
        for form in FORMS {
            let path = bench.path(form.0.file());
            fs::create_dir_all(&path).unwrap();
            // a folder of records is what batch takes, and alone it must not be empty
            let taken = form.1[0] == "batch" && form.0 == Kind::Record;
            if !taken {
                bench.try_form(form, "a folder", None);
            }
        }
    });
}

#[test]
fn outputs_that_cannot_be_written() {
    on_bench(|bench| {
        for kind in KINDS {
            fs::write(bench.path(kind.file()), good(kind)).unwrap();
        }
        for form in writing_forms() {
            for out in ["/dev/full", "none/out", ".", "good.svt/out"] {
                let place = bench.path(out);
                let mut words = bench.words(form);
                words.retain(|word| *word != bench.out(form.1));
                words.extend([place.clone(), "--force".into()]);
                let ran = kit(&words);
                assert_eq!(ran.status, 4, "{words:?}: {ran:?}");
                let named = ran.err.contains(&*place.to_string_lossy());
                assert!(ran.err.starts_with("kit ") && named, "{ran:?}");
                assert!(!bench.path("none").exists());
            }
        }
    });
}

#[test]
fn inputs_are_not_written_over() {
    on_bench(|bench| {
        let linked = bench.path("linked");
        for form in writing_forms() {
            let path = bench.path(form.0.file());
            let bytes = good(form.0);
            fs::write(&path, &bytes).unwrap();
            let _ = fs::remove_file(&linked);
            symlink(&path, &linked).unwrap();
            for same in [&path, &linked, &bench.folder.join(".").join(form.0.file())] {
                let mut words = bench.words(form);
                words.retain(|word| *word != bench.out(form.1));
                words.extend([same.clone(), "--force".into()]);
                let ran = kit(&words);
                assert!([2, 4].contains(&ran.status), "{words:?}: {ran:?}");
                assert!(ran.err.starts_with("kit "), "{ran:?}");
                assert_eq!(fs::read(&path).unwrap(), bytes, "{words:?}");
            }
        }
    });
}

#[test]
fn an_answer_that_nobody_takes() {
    on_bench(|bench| {
        for kind in KINDS {
            fs::write(bench.path(kind.file()), good(kind)).unwrap();
        }
        for form in FORMS {
            for takes in [0, 1, 20] {
                let words = bench.words(form);
                let answers = !kit(&words).out.is_empty();
                let said = |with| kit_to(&words, &mut Failing { takes, with }, false);
                let (full, closed) = (said(ErrorKind::StorageFull), said(ErrorKind::BrokenPipe));
                if answers && kit(&words).out.len() > takes {
                    assert_eq!([full.0, closed.0], [4, 4], "{words:?}");
                    assert!(
                        full.1.contains("cannot be written"),
                        "{words:?}: {}",
                        full.1
                    );
                    assert_eq!(closed.1, "", "{words:?}");
                }
            }
        }
    });
}
