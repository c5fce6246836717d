//! The files of the repository.

use std::fs::read_to_string;

/// The text of a file, by its path below the root.
pub fn text(path: &str) -> String {
    read_to_string(format!("{}/../../{path}", env!("CARGO_MANIFEST_DIR"))).expect(path)
}

/// The lines of a file that the filter takes, without the blanks around them.
pub fn lines(path: &str, wanted: fn(&str) -> bool) -> Vec<String> {
    text(path).lines().map(str::trim).filter(|line| wanted(line)).map(str::to_string).collect()
}
