//! What the tests share.

use std::path::PathBuf;

/// A file of examples/.
#[allow(dead_code)]
pub fn example(name: &str) -> Vec<u8> {
    let path = PathBuf::from(env!("CARGO_MANIFEST_DIR")).join("../examples").join(name);
    std::fs::read(&path).unwrap_or_else(|error| panic!("{}: {error}", path.display()))
}

/// The explanation has all of these.
#[allow(dead_code)]
pub fn has(text: &str, parts: &[&str]) {
    parts.iter().for_each(|part| assert!(text.contains(part), "{part:?} is not in\n{text}"));
}

#[allow(dead_code)]
pub const EXAMPLES: [&str; 3] = ["bench", "offline", "refused"];
