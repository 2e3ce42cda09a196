//! What tests of files share.

use std::fs;
use std::path::PathBuf;

/// The bytes of a text in hexadecimal digits, eight in a line.
#[allow(dead_code)] // (some tests have no such text)
pub fn bytes_of(text: &str) -> Vec<u8> {
    text.lines()
        .flat_map(|line| u64::from_str_radix(line, 16).expect("digits").to_be_bytes())
        .collect()
}

/// A file of a test's own, which is removed in the end.
pub struct Place(pub PathBuf);

impl Place {
    pub fn new(name: &str) -> Place {
        let name = format!("fastbloom.{name}.{}.bloom", std::process::id());
        Place(std::env::temp_dir().join(name))
    }
}

impl Drop for Place {
    fn drop(&mut self) {
        let _ = fs::remove_file(&self.0);
    }
}
