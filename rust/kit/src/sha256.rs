//! SHA-256, as `sha256sum` prints it.
use sha2::{Digest, Sha256};

/// The digest of these bytes: 64 hexadecimal digits.
pub fn of(bytes: &[u8]) -> String {
    hex(Sha256::new_with_prefix(bytes))
}

/// The digest of what a hasher was given.
pub fn hex(hasher: Sha256) -> String {
    let digits = |byte: &u8| format!("{byte:02x}");
    hasher.finalize().iter().map(digits).collect()
}

#[cfg(test)]
mod tests {
    /// The examples of FIPS 180-4.
    #[test]
    fn known_digests() {
        let empty = "e3b0c44298fc1c149afbf4c8996fb92427ae41e4649b934ca495991b7852b855";
        let abc = "ba7816bf8f01cfea414140de5dae2223b00361a396177a9cb410ff61f20015ad";
        assert_eq!([super::of(b""), super::of(b"abc")], [empty, abc]);
    }
}
