//! Where results go: what is written over, what is not, and standard output.
use crate::support::{example, kit, record, Folder, Ran};
use std::fs;
use std::os::unix::fs::{symlink, PermissionsExt};

/// A waveform of one signal.
const WAVE: &str =
    "$timescale 1ns $end $var wire 1 a ack $end $enddefinitions $end\n#0 0a #10 1a\n";

/// A folder with the inputs of the commands that write.
struct Bench {
    folder: Folder,
    text: String,
    wave: String,
}

impl Bench {
    fn new() -> Bench {
        let folder = Folder::new();
        let text = folder.file("in.txt", "signals ack\nalways weak(ack)\n");
        let wave = folder.file("in.vcd", WAVE);
        Bench { folder, text, wave }
    }

    /// Runs a command that writes, with this output and more words.
    fn run(&self, command: &str, output: &str, more: &[&str]) -> Ran {
        let record = example("flush.svw");
        let words = match command {
            "table" => vec!["table", &self.text],
            "record" => vec!["record", &self.wave, "--signals", "ack=ack"],
            _ => vec!["picture", &self.text, &record],
        };
        kit([&words[..], &["-o", output], more].concat())
    }
}

/// Each command that writes, what it writes and its ending.
const WRITING: [(&str, &str, &str); 3] = [
    ("table", "a table", ".svt"),
    ("record", "a record", ".svw"),
    ("picture", "a picture", ".svg"),
];

/// The files of a folder but for the inputs, by name.
fn left(folder: &Folder) -> Vec<String> {
    let names = fs::read_dir(&**folder).unwrap();
    let names = names.map(|entry| entry.unwrap().file_name().into_string().unwrap());
    let mut names: Vec<String> = names.filter(|name| !name.starts_with("in.")).collect();
    names.sort();
    names
}

#[test]
fn another_ending_is_refused_unless_forced() {
    for (command, what, ending) in WRITING {
        let bench = Bench::new();
        for name in [
            "x.txt", "x.vcd", "x.png", "x.svt", "x.svw", "x.svg", "x", ".svt", ".svw", ".svg",
            "x.SVT",
        ] {
            if name.ends_with(ending) && name != ending {
                continue;
            }
            let output = bench.folder.path(name);
            let ran = bench.run(command, &output, &[]);
            let told = format!(
                "kit {command}: -o {output}: the name of {what} ends in {ending}; --force writes it under any name\n"
            );
            assert!(ran.status == 2 && ran.out.is_empty(), "{ran:?}");
            assert!(ran.err.starts_with(&told), "{}", ran.err);
        }
        assert_eq!(left(&bench.folder), [""; 0]);
        let ran = bench.run(command, &bench.folder.path("x.bin"), &["--force"]);
        assert_eq!((ran.status, ran.err.as_str()), (0, ""));
    }
}

#[test]
fn a_file_that_the_command_did_not_write_is_kept() {
    for (command, _, ending) in WRITING {
        let bench = Bench::new();
        let output = bench.folder.path(&format!("x{ending}"));
        let foreign: [&[u8]; 4] = [
            b"",
            b"my notes",
            &record(&[1]),
            b"<svg xmlns=\"x\">\n<!-- mine -->\n</svg>\n",
        ];
        for bytes in foreign {
            fs::write(&output, bytes).unwrap();
            let ran = bench.run(command, &output, &[]);
            let told = format!(
                "kit {command}: {output}: cannot be written: it is there already, and kit {command} did not write it, \
                 or it was changed since; another name keeps it, --force writes over it\n"
            );
            assert_eq!((ran.status, ran.out.as_str(), ran.err), (4, "", told));
            assert_eq!(fs::read(&output).unwrap(), bytes);
        }
        assert_eq!(left(&bench.folder), [format!("x{ending}")]);
        assert_eq!(bench.run(command, &output, &["--force"]).status, 0);
        assert_ne!(fs::read(&output).unwrap(), foreign[3]);
        // its own is written over, and one that was changed since is not
        let own = fs::read(&output).unwrap();
        assert_eq!(bench.run(command, &output, &[]).status, 0);
        assert_eq!(fs::read(&output).unwrap(), own);
        let mut changed = own.clone();
        changed[1] ^= 1;
        fs::write(&output, &changed).unwrap();
        assert_eq!(bench.run(command, &output, &[]).status, 4);
    }
}

/// What another command wrote is not this one's, by whatever name.
#[test]
fn each_command_knows_its_own_files() {
    for (command, _, ending) in WRITING {
        for (other, ..) in WRITING {
            let bench = Bench::new();
            let output = bench.folder.path(&format!("x{ending}"));
            assert_eq!(bench.run(other, &output, &["--force"]).status, 0);
            let before = fs::read(&output).unwrap();
            let ran = bench.run(command, &output, &[]);
            let status = if command == other { 0 } else { 4 };
            assert_eq!(ran.status, status, "{other} and then {command}");
            if status != 0 {
                assert_eq!(fs::read(&output).unwrap(), before);
            }
        }
    }
}

/// The file beside a table or a record is kept too, where the kit did not write it.
#[test]
fn what_stands_beside_is_kept() {
    for (command, ending) in [("table", ".svt"), ("record", ".svw")] {
        let bench = Bench::new();
        let output = bench.folder.path(&format!("x{ending}"));
        let beside = format!("{output}.json");
        fs::write(&beside, "{}").unwrap();
        let ran = bench.run(command, &output, &[]);
        let begins = format!("kit {command}: {beside}: cannot be written: it is there already");
        assert!(
            ran.status == 4 && ran.err.starts_with(&begins),
            "{}",
            ran.err
        );
        assert_eq!(fs::read(&beside).unwrap(), b"{}");
        assert_eq!(left(&bench.folder), [format!("x{ending}.json")]);
        assert_eq!(bench.run(command, &output, &["--force"]).status, 0);
        // of a file that is gone since, what stands beside is still its own
        fs::remove_file(&output).unwrap();
        assert_eq!(bench.run(command, &output, &[]).status, 0);
    }
}

#[test]
fn standard_output_takes_a_picture_and_nothing_else() {
    let bench = Bench::new();
    let ran = bench.run("picture", "-", &[]);
    assert_eq!(
        (ran.status, ran.err.as_str()),
        (0, "standard output: level 0 tested yes, 6 samples\n")
    );
    let output = bench.folder.path("x.svg");
    assert_eq!(bench.run("picture", &output, &[]).status, 0);
    assert_eq!(ran.out, fs::read_to_string(&output).unwrap());
    for (command, what, ending) in WRITING.into_iter().take(2) {
        for more in [&[][..], &["--force"]] {
            let ran = bench.run(command, "-", more);
            let told = format!(
                "kit {command}: {what} is no text, which standard output is for: -o names a file that ends in {ending}\n"
            );
            assert!(ran.status == 2 && ran.err.starts_with(&told), "{}", ran.err);
        }
    }
}

/// What cannot be written leaves what was there, and nothing half done beside it.
#[test]
fn a_file_is_written_whole_or_not_at_all() {
    for (command, _, ending) in WRITING {
        let bench = Bench::new();
        let name = format!("sub/x{ending}");
        let output = bench.folder.path(&name);
        let ran = bench.run(command, &output, &[]);
        assert!(
            ran.status == 4 && ran.err.contains("its folder is not there"),
            "{}",
            ran.err
        );
        fs::create_dir(bench.folder.join("sub")).unwrap();
        assert_eq!(bench.run(command, &output, &[]).status, 0);
        let names = fs::read_dir(bench.folder.join("sub")).unwrap();
        let names: Vec<_> = names.map(|entry| entry.unwrap().file_name()).collect();
        assert!(
            names
                .iter()
                .all(|name| !name.to_string_lossy().contains(".part")),
            "{names:?}"
        );
        let before = fs::read(&output).unwrap();
        // a mistake in an input changes nothing
        fs::write(&bench.text, "signals ack\nalways weak(\n").unwrap();
        fs::write(&bench.wave, "$end").unwrap();
        assert_eq!(bench.run(command, &output, &["--force"]).status, 4);
        assert_eq!(fs::read(&output).unwrap(), before);
    }
}

/// A link stays a link, and the file that it leads to keeps who may read it.
#[test]
fn a_link_stays_and_so_do_permissions() {
    for (command, _, ending) in WRITING {
        let bench = Bench::new();
        let output = bench.folder.path(&format!("x{ending}"));
        assert_eq!(bench.run(command, &output, &[]).status, 0);
        fs::set_permissions(&output, fs::Permissions::from_mode(0o640)).unwrap();
        let link = bench.folder.path(&format!("link{ending}"));
        symlink(&output, &link).unwrap();
        assert_eq!(bench.run(command, &link, &[]).status, 0);
        assert!(fs::symlink_metadata(&link).unwrap().is_symlink());
        // what is known of it stands beside the file, and not beside the link
        assert!(!bench.folder.join(format!("link{ending}.json")).exists());
        if command != "picture" {
            assert_eq!(
                [&output, &link].map(|path| kit(["show", path]).status),
                [0, 0]
            );
        }
        let mode = fs::metadata(&output).unwrap().permissions().mode();
        assert_eq!(mode & 0o777, 0o640);
    }
}

/// Devices and folders are no place for a result, even forced.
#[test]
fn what_is_no_ordinary_file_is_never_replaced() {
    for (command, ..) in WRITING {
        let bench = Bench::new();
        let ran = bench.run(command, "/dev/null", &["--force"]);
        let told =
            format!("kit {command}: /dev/null: cannot be written: this is not an ordinary file\n");
        assert_eq!((ran.status, ran.err), (4, told));
        let folder = bench.folder.path("");
        let ran = bench.run(command, &folder, &["--force"]);
        assert!(
            ran.status == 4 && ran.err.contains("cannot be written: this is a folder"),
            "{}",
            ran.err
        );
    }
}

/// What is written first has a short name, so that a result may have the longest.
#[test]
fn a_name_may_be_as_long_as_names_can_be() {
    for (command, _, ending) in WRITING {
        let bench = Bench::new();
        let letters = match command {
            "picture" => 251,
            // the one beside it has five letters more
            _ => 246,
        };
        let output = bench
            .folder
            .path(&format!("{}{ending}", "x".repeat(letters)));
        let ran = bench.run(command, &output, &[]);
        assert_eq!((ran.status, ran.err.as_str()), (0, ""));
    }
    // a record whose name has no room for the one beside it has none
    let folder = Folder::new();
    let record = folder.path(&format!("{}.svw", "x".repeat(251)));
    fs::copy(example("flush.svw"), &record).unwrap();
    assert_eq!(kit(["show", record.as_str()]).status, 0);
}

#[test]
fn a_link_to_nothing_is_kept() {
    for (command, _, ending) in WRITING {
        let bench = Bench::new();
        let link = bench.folder.path(&format!("link{ending}"));
        symlink("gone", &link).unwrap();
        let ran = bench.run(command, &link, &["--force"]);
        let told = format!(
            "kit {command}: {link}: cannot be written: this is a link to a file that is not there\n"
        );
        assert_eq!((ran.status, ran.err), (4, told));
        assert!(fs::symlink_metadata(&link).unwrap().is_symlink());
    }
}

/// What would be too long to be read again is not written.
#[test]
fn paths_that_are_too_long_to_tell_are_refused() {
    let folder = Folder::new();
    let (mut header, mut signals) = (String::new(), Vec::new());
    for number in 0..20 {
        let module = "m".repeat(60_000);
        header += &format!(
            "$scope module {module}{number} $end $var wire 1 {number} w{number} $end $upscope $end\n"
        );
        signals.push(format!("s{number}=w{number}"));
    }
    let values: String = (0..20).map(|number| format!(" 0{number}")).collect();
    let wave = format!("{header}$enddefinitions $end\n#0{values}\n");
    let wave = folder.file("in.vcd", &wave);
    let output = folder.path("x.svw");
    let list = signals.join(",");
    let ran = kit(["record", &wave, "--signals", &list, "-o", &output]);
    assert_eq!(ran.status, 4);
    assert!(ran
        .err
        .contains("x.svw.json: cannot be written: it would be longer than a mebibyte"));
    assert_eq!(left(&folder), [""; 0]);
}

/// What stands beside an input is an input too, and an edited file beside a record is not written over.
#[test]
fn what_stands_beside_an_input_is_never_written_over() {
    let bench = Bench::new();
    let record = bench.folder.path("r.svw");
    assert_eq!(bench.run("record", &record, &[]).status, 0);
    let beside = format!("{record}.json");
    let before = fs::read(&beside).unwrap();
    let ran = kit(["picture", &bench.text, &record, "-o", &beside, "--force"]);
    let told = format!("kit picture: -o {beside} would write over an input\n");
    assert!(ran.status == 2 && ran.err.starts_with(&told), "{}", ran.err);
    assert_eq!(fs::read(&beside).unwrap(), before);
    let noted = String::from_utf8(before)
        .unwrap()
        .replacen('{', "{ \"note\": \"mine\",", 1);
    fs::write(&beside, &noted).unwrap();
    let ran = bench.run("record", &record, &[]);
    let begins = format!("kit record: {beside}: cannot be written: it is there already");
    assert!(
        ran.status == 4 && ran.err.starts_with(&begins),
        "{}",
        ran.err
    );
    assert_eq!(fs::read_to_string(&beside).unwrap(), noted);
}

/// A pipe beside a record, which nobody named, is not waited for.
#[test]
fn a_pipe_beside_a_record_is_told() {
    let folder = Folder::new();
    let path = folder.path("x.svw");
    fs::copy(example("flush.svw"), &path).unwrap();
    let beside = format!("{path}.json");
    let made = std::process::Command::new("mkfifo").arg(&beside).status();
    assert!(made.unwrap().success());
    let ran = kit(["judge", &example("flush.svt"), &path]);
    let told = format!("kit judge: {beside}: cannot be read: this is not an ordinary file\n");
    assert_eq!((ran.status, ran.err), (4, told));
}
