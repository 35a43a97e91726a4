//! Judging many records at once.
use super::find::Place;
use crate::beside::{self, Beside, Recorded};
use crate::engine::{Difference, Engines, Unjudged};
use crate::files;
use crate::names::Names;
use crate::verdict::{Judged, Reaching};
use std::fs::File;
use std::io::Read;
use std::iter::Zip;
use std::num::NonZero;
use std::path::Path;
use std::slice::{Chunks, ChunksMut};
use std::sync::atomic::{AtomicUsize, Ordering};
use std::sync::mpsc::{channel, RecvTimeoutError};
use std::sync::{Mutex, PoisonError};
use std::thread;
use std::time::{Duration, Instant};
use xistomar::{Refusal, LONGEST};

/// The records that a thread takes at once.
const PART: usize = 64;

/// How often a watcher is told.
const TENTH: Duration = Duration::from_millis(100);

/// What became of a record.
#[derive(Clone, Debug, PartialEq, Eq)]
pub enum Answer {
    /// The judge's answer, and whether every `|->` was asked.
    Judged(Judged),
    /// The record is refused.
    Refused(Refusal),
    /// The engines differ on the record.
    Differ(Difference),
    /// The file cannot be read, and why.
    Unreadable(String),
    /// What stands beside the record speaks of other signals than the table, or of other bytes, and how.
    Mismatched(String),
}

/// What became of all records.
#[derive(Debug)]
pub struct Run<'a> {
    /// An answer for each place, in their order.
    pub answers: Vec<Answer>,
    /// The record that took the longest to judge, reading not counted.
    pub slowest: Option<(Duration, &'a Path)>,
}

/// What all records are judged by.
pub struct By<'a> {
    /// The assertion.
    pub reaching: &'a Reaching,
    /// The engines, which do not refuse it.
    pub engines: &'a Engines,
    /// The names of its signals; none of a table that is no text.
    pub names: &'a Names,
    /// The signals that it asks about.
    pub asked: Vec<u8>,
}

/// Places that are not yet taken by a thread, with room for their answers.
type Parts<'a, 'b> = Zip<Chunks<'a, Place>, ChunksMut<'b, Answer>>;

/// What the threads share.
struct Shared<'a, 'b> {
    by: &'a By<'a>,
    parts: Mutex<Parts<'a, 'b>>,
    done: AtomicUsize,
    slowest: Mutex<Option<(Duration, &'a Path)>>,
}

/// Judges the record at each place by a table that its engines do not refuse, with as many threads as run at
/// once here. While they work, `watch` is told every tenth of a second how many are done.
pub fn judge_all<'a>(by: &'a By<'a>, places: &'a [Place], watch: &mut dyn FnMut(usize)) -> Run<'a> {
    let mut answers = Vec::new();
    answers.resize_with(places.len(), || Answer::Unreadable(String::new()));
    let shared = Shared {
        by,
        parts: Mutex::new(places.chunks(PART).zip(answers.chunks_mut(PART))),
        done: AtomicUsize::new(0),
        slowest: Mutex::new(None),
    };
    let most = thread::available_parallelism().map_or(1, NonZero::get);
    run_threads(&shared, most.min(places.len().div_ceil(PART)), watch);
    let slowest = shared.slowest.into_inner();
    let slowest = slowest.unwrap_or_else(PoisonError::into_inner);
    Run { answers, slowest }
}

/// Runs the threads to their end. Where none can be started the work is done here.
fn run_threads(shared: &Shared, threads: usize, watch: &mut dyn FnMut(usize)) {
    thread::scope(|scope| {
        let (working, ended) = channel::<()>();
        let mut started = 0;
        for _ in 0..threads {
            let working = working.clone();
            let work = move || {
                Worker::new(shared).work();
                drop(working);
            };
            started += usize::from(thread::Builder::new().spawn_scoped(scope, work).is_ok());
        }
        if started == 0 {
            Worker::new(shared).work();
        }
        drop(working);
        while let Err(RecvTimeoutError::Timeout) = ended.recv_timeout(TENTH) {
            watch(shared.done.load(Ordering::Relaxed));
        }
    });
}

/// One thread's engines, with the memory that it reads records into.
struct Worker<'s, 'a, 'b> {
    shared: &'s Shared<'a, 'b>,
    engines: Engines,
    bytes: Vec<u8>,
    samples: [u64; LONGEST],
    slowest: Option<(Duration, &'a Path)>,
}

impl<'s, 'a, 'b> Worker<'s, 'a, 'b> {
    fn new(shared: &'s Shared<'a, 'b>) -> Worker<'s, 'a, 'b> {
        Worker {
            shared,
            engines: shared.by.engines.clone(),
            bytes: Vec::with_capacity(2 * files::MOST as usize),
            samples: [0; LONGEST],
            slowest: None,
        }
    }

    /// Takes parts until there are none left.
    fn work(mut self) {
        while let Some((places, answers)) = self.next_part() {
            for (place, answer) in places.iter().zip(answers) {
                *answer = self.answer(place);
                self.shared.done.fetch_add(1, Ordering::Relaxed);
            }
        }
        let slowest = self.shared.slowest.lock();
        let mut slowest = slowest.unwrap_or_else(PoisonError::into_inner);
        *slowest = (*slowest).max(self.slowest);
    }

    fn next_part(&self) -> Option<(&'a [Place], &'b mut [Answer])> {
        let parts = self.shared.parts.lock();
        parts.unwrap_or_else(PoisonError::into_inner).next()
    }

    fn answer(&mut self, place: &'a Place) -> Answer {
        if let Some(why) = &place.wrong {
            return Answer::Unreadable(why.clone());
        }
        self.bytes.clear();
        let file = File::open(&place.path);
        let read = file.and_then(|file| file.take(files::MOST).read_to_end(&mut self.bytes));
        if let Err(error) = read {
            return Answer::Unreadable(files::why(&error));
        }
        let begun = Instant::now();
        match self.judge() {
            Err(Unjudged::Refused(refusal)) => Answer::Refused(refusal),
            Err(Unjudged::Differ(difference)) => Answer::Differ(difference),
            Ok(judged) => {
                let time = (begun.elapsed(), place.path.as_path());
                self.slowest = self.slowest.max(Some(time));
                match self.named(&place.path) {
                    Ok(named) => Answer::Judged(Judged { named, ..judged }),
                    Err(why) => Answer::Mismatched(why),
                }
            }
        }
    }

    /// Whether the assertion and a record are known to mean the same signals, or why they do not, or what
    /// stands beside the record does not fit it.
    fn named(&self, record: &Path) -> Result<bool, String> {
        let own = format!("{}: ", files::shown(record));
        let recorded: Option<Recorded> = beside::known(record, &self.bytes).map_err(|failure| {
            let words = failure.words();
            words.strip_prefix(&own).unwrap_or(words).to_string()
        })?;
        let By { names, asked, .. } = self.shared.by;
        let Some(recorded) = recorded else {
            return Ok(false);
        };
        let unlike = beside::unlike(names, asked, &recorded.names());
        let unlike = unlike.iter().map(|it| {
            let words = it.words("the assertion", "the record");
            format!("signal {} is {words}", it.number())
        });
        let unlike = unlike.collect::<Vec<_>>().join("; ");
        match unlike.is_empty() {
            true => Ok(!names.all().is_empty()),
            false => Err(unlike),
        }
    }

    /// Judges the record that was read.
    fn judge(&mut self) -> Result<Judged, Unjudged> {
        let count = xistomar::read(&self.bytes, &mut self.samples)?;
        let samples = self.samples.get(..count).unwrap_or_default();
        self.shared.by.reaching.judged(&mut self.engines, samples)
    }
}
