//! The list **Believe** of a page, read and written: for each file what its names say, and then the names.

use crate::documents::{quoted, WIDTH};
use std::fmt::{Display, Formatter, Result};

/// An entry of the list.
#[derive(Debug, PartialEq)]
pub struct Entry {
    pub file: String,
    pub says: String,
    pub names: Vec<String>,
}

/// The entries after the line that begins with `**Believe**`: each from a dash on, with the indented lines after it.
pub fn entries(page: &str) -> Vec<Entry> {
    let after = page.lines().skip_while(|line| !line.starts_with("**Believe**")).skip_while(|line| !line.starts_with("- "));
    let list: Vec<&str> = after.take_while(|line| line.starts_with("- ") || line.starts_with("  ")).collect();
    list.chunk_by(|_, next| next.starts_with("  ")).map(Entry::read).collect()
}

/// Whether a line has names in backticks and nothing else.
fn is_names(line: &str) -> bool {
    line.contains('`') && line.split('`').step_by(2).all(|between| ["", ","].contains(&between.trim()))
}

impl Entry {
    /// The lines at the end that have names only are the names.
    fn read(lines: &[&str]) -> Entry {
        let (said, named) = lines.split_at(lines.len() - lines.iter().rev().take_while(|line| is_names(line)).count());
        let said = said.iter().flat_map(|line| line.split_whitespace()).collect::<Vec<_>>().join(" ");
        let (file, says) = said.split_once("`: ").unwrap_or((&said, ""));
        let file = file.trim_matches(['-', ' ', '`', ':']).to_string();
        Entry { file, says: says.to_string(), names: named.iter().flat_map(|line| quoted(line)).map(str::to_string).collect() }
    }
}

impl Display for Entry {
    fn fmt(&self, f: &mut Formatter) -> Result {
        let names: Vec<String> = self.names.iter().map(|name| format!("`{name}`")).collect();
        let said = wrapped("-", &format!("`{}`: {}", self.file, self.says));
        write!(f, "{said}\n{}", wrapped(" ", &names.join(", ")))
    }
}

/// The words of a text in lines that are short enough, the first after a mark, the others after a blank in its place.
fn wrapped(mark: &str, text: &str) -> String {
    let (mut lines, mut line) = (Vec::new(), mark.to_string());
    for word in text.split_whitespace() {
        if line.chars().count() + 1 + word.chars().count() > WIDTH {
            lines.push(std::mem::replace(&mut line, " ".to_string()));
        }
        line += " ";
        line += word;
    }
    lines.push(line);
    lines.join("\n")
}
