//! Prints the list **Believe**, with what the page says of each file, and what the definitions use of the toolchain.

use believe::list::{entries, Entry};
use believe::{page, reach};

/// The files stand as on the page, and those that it lacks after them.
fn main() {
    let (reach, entries) = (reach(), entries(&page()));
    let mut files: Vec<_> = reach.names().into_iter().collect();
    let at = |file: &str| entries.iter().position(|entry| entry.file == file).unwrap_or(entries.len());
    files.sort_by_key(|(file, _)| at(file));
    for (file, names) in files {
        let says = entries.get(at(&file)).map_or(String::new(), |entry| entry.says.clone());
        println!("{}", Entry { file, says, names });
    }
    println!("\nOf the toolchain, or made by it from a contract:\n");
    for (module, names) in &reach.toolchain {
        println!("{module}: {}", names.iter().cloned().collect::<Vec<_>>().join(" "));
    }
    reach.unknown.iter().for_each(|line| println!("\n{line}"));
}
