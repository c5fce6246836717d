//! The definitions that a reader must believe: all that the public contracts and the theorems that answer the demands reach.
//! A reached definition reaches the names of its type and of its body; a theorem only those of its statement.
//! And what is checked of the documents (`documents`).

#![forbid(unsafe_code)]

pub mod documents;
pub mod list;
pub mod reach;
pub mod read;

use list::entries;
use reach::Reach;
use std::path::{Path, PathBuf};

/// The directories below `crates/` whose public functions have contracts for a caller.
const CONTRACTS: &[&str] = &["belaykeel/src/", "calls/src/", "printing/src/"];

/// What it is that a call goes as the ledger says, and when a setting is not tested again.
const PROMISES: &[(&str, &str)] = &[("theorem/specs/Follows.antt", "Agrees"), ("visiting/specs/Store.antt", "Checked")];

/// The theorems that answer the demands, by file below `crates/`.
const STATEMENTS: &[(&str, &str)] = &[
    ("theorem/proofs/Sequence.antt", "demand_3"),
    ("theorem/proofs/Corollaries.antt", "no_15 engine-order-spaces back-shows_again"),
    ("theorem/proofs/No8.antt", "no_8"),
    ("theorem/proofs/Inner.antt", "answered every_call"),
    ("theorem/proofs/Inner.antt", "open_free show-free choose-free strike-free withdraw-choice-free withdraw-strike-free"),
    ("theorem/proofs/Inner.antt", "back-free coil_on-free"),
    ("theorem/proofs/Outer.antt", "answered every_call"),
    ("theorem/proofs/Outer.antt", "open_public show_public choose_public strike_public withdraw-choice_public"),
    ("theorem/proofs/Outer.antt", "withdraw-strike_public back_public coil_on_public"),
    ("theorem/proofs/RoundTrips.antt", "read-answered write-answered every-read every-write read_public write_public"),
    ("theorem/proofs/RoundTrips.antt", "read-exact read-then-write read-then-refused write-then-read write-retired retired-write"),
    ("belaykeel_offers/proofs/WholeInput.antt", "page_of_input"),
    ("printing/specs/Decimal.antt", "decimal-digits decimal-value decimal-first"),
    ("printing/specs/Offered.antt", "offered-rising offered-has offered-only"),
    ("cases/specs/Table.antt", "cases_hold"),
    ("ledger/proofs/Laws.antt", "accepted-steps refused-keeps alike-offers"),
    ("ledger/proofs/Theorems.antt", "back_undoes withdrawn_leaves set_up_kept set_up_shown"),
    ("ledger/proofs/Selection.antt", "open-selects others_keep offers_of-is all_selected more-selected"),
    ("ledger/proofs/Sound.antt", "never_18"),
    ("accepted/specs/Theorems.antt", "accepted-right right-is-accepted right-retired writable_right right-is_writable"),
    ("accepted/specs/Theorems.antt", "exact encoded-read read-written read-refused written_read"),
    ("accepted/specs/FirstFault.antt", "refused-retired retired-refused"),
    ("accepted/specs/Theorems.antt", "most-bytes most-numbers most-sheet-bytes most-sheet-numbers enough-room"),
    ("consistency/proofs/Closing.antt", "closing-is"),
    ("consistency/proofs/Offers.antt", "offers-is"),
    ("consistency/proofs/AllSelected.antt", "all_tested-is offers_all_selected"),
    ("consistency/proofs/Order.antt", "offers-more-selected"),
    ("consistency/proofs/Again.antt", "passes_again"),
    ("consistency/proofs/TwoInside.antt", "offers-two-inside"),
    ("consistency/proofs/Neighbourhood.antt", "neighbourhood-walk"),
    ("consistency/specs/Neighbourhood.antt", "neighbourhood-whole"),
    ("closing/specs/Figure2.antt", "listed-once listed_was_lost initialized_enters-once initialized_nothing_else"),
    ("closing/specs/Figure2.antt", "pruned_enters-once pruned_nothing_else pruned_counts counted-exact"),
];

/// The root of the repository.
pub fn repository() -> PathBuf {
    Path::new(env!("CARGO_MANIFEST_DIR")).join("../..")
}

/// The page that has the list **Believe**; empty where it cannot be read.
pub fn page() -> String {
    std::fs::read_to_string(repository().join("docs/ARCHITECTURE.md")).unwrap_or_default()
}

/// All that is reached in the crates of the repository.
pub fn reach() -> Reach {
    let mut reach = Reach::new(&repository().join("crates"));
    CONTRACTS.iter().for_each(|directory| reach.contracts(directory));
    PROMISES.iter().for_each(|(file, name)| reach.name(file, name, false));
    for (file, names) in STATEMENTS {
        names.split(' ').for_each(|name| reach.name(file, name, true));
    }
    reach
}

/// A line for each name that is reached and not listed, or listed and not reached, and for what could not be looked up.
pub fn differences(reach: &Reach, page: &str) -> Vec<String> {
    let (reached, entries) = (reach.names(), entries(page));
    let mut found: Vec<String> = reach.unknown.iter().cloned().collect();
    for (file, names) in &reached {
        let listed = |name: &String| entries.iter().any(|entry| entry.file == *file && entry.names.contains(name));
        let missing = names.iter().filter(|name| !listed(name));
        found.extend(missing.map(|name| format!("reached and not listed: add `{name}` to the entry of `{file}`")));
    }
    for entry in &entries {
        let file = &entry.file;
        for name in entry.names.iter().filter(|name| !reached.get(file).is_some_and(|names| names.contains(name))) {
            let declared = reach.declarations(file).iter().any(|declaration| declaration.name == *name);
            let why = if declared { "not reached" } else { "not declared there" };
            found.push(format!("listed and {why}: remove `{name}` from the entry of `{file}`"));
        }
    }
    found
}
