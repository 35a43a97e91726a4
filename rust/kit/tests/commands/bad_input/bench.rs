//! Running the commands on bad files, and the rules that hold for each run.
use super::forms::{forms, Form, Kind};
use crate::support::{example_bytes, kit, put, Folder, Ran};
use std::fs;
use std::path::PathBuf;
use std::sync::mpsc::{channel, RecvTimeoutError};
use std::sync::{Arc, Mutex};
use std::thread;
use std::time::Duration;
use xistomar::{Judge, Judgement, Refusal};

/// What stands in an output before a command runs.
const BEFORE: &[u8] = b"what was here before";

/// A folder with the good files, and room for a bad one and an output.
pub struct Bench {
    pub folder: Folder,
    /// What is tried now, for a run that does not come back.
    trying: Arc<Mutex<String>>,
    runs: usize,
}

impl Bench {
    pub fn path(&self, name: &str) -> PathBuf {
        self.folder.join(name)
    }

    /// Where the result of a form goes.
    pub fn out(&self, words: &[&str]) -> PathBuf {
        self.path(match words[0] {
            "table" => "out.svt",
            "record" => "out.svw",
            _ => "out.svg",
        })
    }

    /// The words of a form.
    pub fn words(&self, (kind, words): Form) -> Vec<PathBuf> {
        let word = |word: &&str| match *word {
            "IN" => self.path(kind.file()),
            "OUT" => self.out(words),
            "TABLE" => self.path("good.svt"),
            "RECORD" => self.path("good.svw"),
            word => PathBuf::from(word),
        };
        words.iter().map(word).collect()
    }

    /// Tries every command that takes a file of this kind on these bytes.
    pub fn try_bytes(&mut self, kind: Kind, name: &str, bytes: &[u8]) {
        put(&self.path(kind.file()), bytes);
        for form in forms(kind) {
            self.try_form(form, name, Some(bytes));
        }
    }

    /// Tries a form on the bad file that stands there, whose bytes are these; or on one without any,
    /// which cannot be read. In every fifth run an output stands there before, which --force gives up.
    pub fn try_form(&mut self, form: Form, name: &str, bytes: Option<&[u8]>) {
        let mut words = self.words(form);
        let case = format!("{:?} on {name}", form.1);
        self.trying.lock().unwrap().clone_from(&case);
        self.runs += 1;
        let out = self.out(form.1);
        let writes = form.1.contains(&"OUT");
        let before = Some(BEFORE).filter(|_| writes && self.runs.is_multiple_of(5));
        let _ = fs::remove_file(&out);
        if let Some(before) = before {
            put(&out, before);
            words.push(PathBuf::from("--force"));
        }
        let ran = kit(&words);
        let left = fs::read(&out).ok();
        self.message(form, &ran, &case);
        match bytes {
            None => assert_eq!(ran.status, 4, "{case}: {ran:?}"),
            Some(bytes) => self.answer(form, &ran, bytes, &case),
        }
        match (ran.status, left) {
            (0, Some(left)) if writes => promised(form, &left, &case),
            (0, None) if writes => panic!("{case}: no output"),
            (_, left) => assert_eq!(left.as_deref(), before, "{case}: the output"),
        }
    }

    /// A failure has a message. It names the file, or the option that does not fit it.
    fn message(&self, (kind, words): Form, ran: &Ran, case: &str) {
        let begins = format!("kit {}: ", words[0]);
        let named = match ran.status {
            4 => ran.err.contains(kind.file()) || ran.out.contains(kind.file()),
            2 => options(words).any(|option| ran.err.starts_with(&format!("{begins}{option}"))),
            _ => return,
        };
        assert!(ran.err.starts_with(&begins) && named, "{case}: {ran:?}");
        assert!(ran.err.ends_with('\n'), "{case}: {ran:?}");
    }

    /// The status and the answer are those of the library, where the library takes the bytes. Of a
    /// text nothing is known but the statuses that are its own, and of a waveform that the options of
    /// `record` may not fit it.
    fn answer(&self, form: Form, ran: &Ran, bytes: &[u8], case: &str) {
        let said = format!("{}{}", ran.out, ran.err);
        let refused = |number: u8| said.contains(&format!("refused {number} at "));
        let own: &[u8] = match (form.0, self.library(form, bytes)) {
            (_, Some(answer)) => {
                self.first_line(form, ran, &line(&answer), case);
                let number = answer.err().map(|refusal| refusal.number());
                let json = form.1.contains(&"--json");
                assert!(json || number.is_none_or(refused), "{case}: {ran:?}");
                if number.is_some() {
                    &[3]
                } else {
                    &[0]
                }
            }
            (Kind::Text, None) => &[0, 3, 4],
            (_, None) if form.1[0] == "record" => &[0, 2, 4],
            (_, None) => &[0, 4],
        };
        assert!(own.contains(&ran.status), "{case}: {ran:?}");
        assert!(
            ran.status != 3 || form.0 != Kind::Text || (1..=15).any(refused),
            "{case}: {ran:?}"
        );
    }

    /// What the library says of the bytes, with the good file beside them. A table that is only
    /// shown is checked, and any other is judged.
    fn library(&self, (kind, words): Form, bytes: &[u8]) -> Option<Result<Judgement, Refusal>> {
        let (table, record) = (example_bytes("flush.svt"), example_bytes("flush.svw"));
        let good = xistomar::samples(&record).unwrap();
        match kind {
            Kind::Table if words[0] == "show" => {
                let judged = judged(&table, &good);
                Some(xistomar::check(bytes).and(judged))
            }
            Kind::Table => Some(judged(bytes, &good)),
            Kind::Record => {
                let samples = xistomar::samples(bytes);
                Some(samples.and_then(|samples| judged(&table, &samples)))
            }
            Kind::Text | Kind::Waveform => None,
        }
    }

    /// The first line of `judge`, and of `show` for what is refused, is the answer's, and of
    /// `batch --list` the record's, with more where a `|->` was never asked.
    fn first_line(&self, (kind, words): Form, ran: &Ran, line: &str, case: &str) {
        let first = ran.line();
        match words {
            ["judge", "--json", ..] => {
                let line = format!("\"line\":\"{line}\"");
                assert!(
                    first.starts_with('{') && first.contains(&line),
                    "{case}: {ran:?}"
                );
            }
            ["judge", ..] => assert_eq!(first, line, "{case}"),
            ["show", ..] if ran.status == 3 => assert_eq!(first, line, "{case}"),
            ["batch", ..] if kind == Kind::Record => {
                let name = self.path(kind.file());
                let first = first.strip_suffix(", a |-> never asked").unwrap_or(first);
                assert_eq!(first, format!("{}: {line}", name.display()), "{case}");
            }
            _ => {}
        }
    }
}

/// The answer of the fast engine or, where that refuses with 13, of the plain one.
fn judged(table: &[u8], samples: &[u64]) -> Result<Judgement, Refusal> {
    match Judge::new().judge(table, samples) {
        Err(refusal) if refusal.number() == 13 => xistomar::plain_judge(table, samples),
        answer => answer,
    }
}

/// The program's line.
fn line(answer: &Result<Judgement, Refusal>) -> String {
    match answer {
        Ok(judgement) => judgement.to_string(),
        Err(refusal) => format!("refused {} at {}", refusal.number(), refusal.node()),
    }
}

/// The options of a form.
fn options(words: &'static [&'static str]) -> impl Iterator<Item = &'static str> {
    let options = words.iter().copied();
    options.filter(|word| word.starts_with('-'))
}

/// What a command leaves is what it promises: a table, a record or a picture.
fn promised((_, words): Form, left: &[u8], case: &str) {
    match words[0] {
        "table" => assert_eq!(xistomar::check(left), Ok(()), "{case}"),
        "record" => assert!(xistomar::samples(left).is_ok(), "{case}"),
        _ => {
            let text = String::from_utf8_lossy(left);
            let whole = text.starts_with('<') && text.trim_end().ends_with("</svg>");
            assert!(whole, "{case}: {text}");
        }
    }
}

/// Runs a test on a bench of its own. A run that does not come back in two minutes ends it.
pub fn on_bench(test: impl FnOnce(&mut Bench) + Send + 'static) {
    let folder = Folder::new();
    folder.file("good.svt", example_bytes("flush.svt"));
    folder.file("good.svw", example_bytes("flush.svw"));
    let trying = Arc::new(Mutex::new(String::new()));
    let mut bench = Bench {
        folder,
        trying: Arc::clone(&trying),
        runs: 0,
    };
    let (working, ended) = channel::<()>();
    let runner = thread::spawn(move || {
        let _working = working;
        test(&mut bench);
    });
    if ended.recv_timeout(Duration::from_secs(120)) == Err(RecvTimeoutError::Timeout) {
        panic!("does not come back: {}", trying.lock().unwrap());
    }
    runner.join().unwrap();
}
