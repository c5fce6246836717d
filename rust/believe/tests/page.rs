//! The list **Believe** of `docs/ARCHITECTURE.md` has what is reached, and nothing else.

use believe::list::{entries, Entry};
use believe::{differences, page, reach};

#[test]
fn the_page_lists_what_is_reached() {
    let found = differences(&reach(), &page());
    assert!(found.is_empty(), "docs/ARCHITECTURE.md, **Believe** (`cargo run -p believe` prints the list):\n{}", found.join("\n"));
}

#[test]
fn the_list_is_as_printed() {
    let printed: Vec<String> = entries(&page()).iter().map(Entry::to_string).collect();
    assert!(printed.len() > 1 && page().contains(&printed.join("\n")), "{}", printed.join("\n"));
}

/// What is found where the entry of `pick` lists other names.
fn found_with(names: &str) -> Vec<String> {
    differences(&reach(), &page().replacen("\n  `pick`\n", &format!("\n  {names}\n"), 1))
}

#[test]
fn a_name_that_is_missing_is_found() {
    let line = "reached and not listed: add `pick` to the entry of `masks/specs/Pick.antt`";
    for names in ["", "pick"] {
        assert_eq!(found_with(names), [line]);
    }
}

#[test]
fn a_name_that_is_not_reached_is_found() {
    let found = [("not reached", "pick_true"), ("not declared there", "picked")];
    let found = found.map(|(why, name)| format!("listed and {why}: remove `{name}` from the entry of `masks/specs/Pick.antt`"));
    assert_eq!(found_with("`pick`, `pick_true`, `picked`"), found);
}
