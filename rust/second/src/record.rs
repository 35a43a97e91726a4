//! Reading a record from bytes, with its refusals in their order.

use crate::verdict::{refuse_if, Verdict};

/// The most samples a record may have.
pub const MOST_SAMPLES: usize = 63;

/// The samples of a record, or refusal 1, 2, 3, 10 or 5.
pub fn checked(bytes: &[u8]) -> Result<Vec<u64>, Verdict> {
    refuse_if(bytes.len() < 6, 1)?;
    refuse_if(bytes[..3] != *b"SVW", 2)?;
    refuse_if(bytes[3..5] != [1, 0], 3)?;
    let n = usize::from(bytes[5]);
    refuse_if(n > MOST_SAMPLES, 10)?;
    refuse_if(bytes.len() != 6 + 8 * n, 5)?;
    Ok(bytes[6..].chunks_exact(8).map(sample).collect())
}

/// One sample from its eight bytes, lowest first.
fn sample(bytes: &[u8]) -> u64 {
    bytes
        .iter()
        .rev()
        .fold(0, |high, &byte| high << 8 | u64::from(byte))
}

/// The bytes of a record; only the lowest byte of the number of samples fits.
pub fn record_bytes(samples: &[u64]) -> Vec<u8> {
    let mut bytes = vec![b'S', b'V', b'W', 1, 0, samples.len() as u8];
    for sample in samples {
        bytes.extend(sample.to_le_bytes());
    }
    bytes
}
