//! The examples, records, and writing files.
use std::fs;
use std::path::{Path, PathBuf};

/// Writes a file anew. What stood there goes first: some file systems wait for the disk where a file
/// is written over, and the tests write many.
pub fn put(path: &Path, bytes: &[u8]) {
    let _ = fs::remove_file(path);
    fs::write(path, bytes).unwrap();
}

/// The folder of the examples.
pub fn examples() -> PathBuf {
    Path::new(env!("CARGO_MANIFEST_DIR")).join("../../examples")
}

/// The path of an example, as a word of a command line.
pub fn example(name: &str) -> String {
    examples().join(name).to_str().unwrap().to_string()
}

/// The bytes of an example.
pub fn example_bytes(name: &str) -> Vec<u8> {
    fs::read(example(name)).unwrap()
}

/// The names of the examples with an ending, in order.
pub fn examples_ending(ending: &str) -> Vec<String> {
    let entries = fs::read_dir(examples()).unwrap();
    let names = entries.map(|entry| entry.unwrap().file_name().into_string().unwrap());
    let mut names: Vec<String> = names.filter(|name| name.ends_with(ending)).collect();
    names.sort();
    assert!(!names.is_empty());
    names
}

/// A record of these samples.
pub fn record(samples: &[u64]) -> Vec<u8> {
    let mut record = vec![b'S', b'V', b'W', 1, 0, samples.len() as u8];
    record.extend(samples.iter().flat_map(|sample| sample.to_le_bytes()));
    record
}
