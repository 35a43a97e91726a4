//! Writing a record, with the file beside it that says what is known of it.
use crate::beside::{Identity, Recorded};
use crate::failure::Failure;
use crate::files;
use crate::output::{self, Kind};
use crate::refusals;
use crate::vcd::{Plan, Taken};
use std::path::{Path, PathBuf};

/// What the command writes.
pub const OUTPUT: Kind = Kind {
    command: "record",
    what: "a record",
    ending: ".svw",
    text: false,
    own: output::own::<Recorded>,
    beside: Some(output::own_beside::<Recorded>),
};

/// The two files of a record: itself, and the one beside it.
pub fn files(
    path: &Path,
    (plan, taken): (&Plan, &Taken),
    waveform: &Identity,
    options: &[String],
) -> Result<[(PathBuf, Vec<u8>); 2], Failure> {
    let record = record(path, &taken.samples)?;
    let identity = Identity::of(path, &record);
    let recorded = Recorded::of((plan, taken), identity, waveform.clone(), options);
    output::with_beside(path, record, &recorded)
}

/// The bytes of a record, which the proved reading gives back as these samples.
fn record(path: &Path, samples: &[u64]) -> Result<Vec<u8>, Failure> {
    let count = u8::try_from(samples.len()).unwrap_or(u8::MAX);
    let mut record = vec![b'S', b'V', b'W', 1, 0, count];
    record.extend(samples.iter().flat_map(|sample| sample.to_le_bytes()));
    match xistomar::samples(&record) {
        Ok(read) if read == samples => Ok(record),
        Ok(_) => {
            let words = "the record reads back as other samples";
            Err(Failure::Failed(format!("{}: {words}", files::shown(path))))
        }
        Err(refusal) => Err(refusals::failure(path, refusal)),
    }
}
