//! Damage to bytes, from a seed.
use crate::random::Random;

/// Versions that a table has and such as it has not, some in both bytes.
const VERSIONS: [u16; 7] = [0, 1, 2, 3, 257, 258, 512];

/// Damages the bytes a little: one byte or the version changed, the end cut off, or a byte added.
pub fn damage(r: &mut Random, bytes: &mut Vec<u8>) {
    match r.below(8) {
        0 => bytes.truncate(r.below(bytes.len() + 1)),
        1 => bytes.push(r.below(2) as u8),
        2 => {
            let version = VERSIONS[r.below(VERSIONS.len())];
            bytes[3..5].copy_from_slice(&version.to_le_bytes());
        }
        _ => {
            let at = r.below(bytes.len());
            let operators = [
                0, 1, 2, 3, 4, 5, 6, 16, 17, 18, 20, 21, 22, 32, 34, 37, 40, 41, 255,
            ];
            bytes[at] = match r.below(3) {
                0 => r.pick(&operators),
                1 => r.below(256) as u8,
                _ => bytes[at] ^ (1 << r.below(8)),
            };
        }
    }
}
