//! The limits that callers see, in the header and the wrapper, are those of the code; the solver has its own, read from the papers.

use belaykeel::{raw, EVENTS};
use harness::repository::lines;

/// The limits by their names in the code, and by their names in the header.
const LIMITS: [(&str, &str, usize); 9] = [
    ("MOST_FIELDS", "FIELDS", solver::MOST),
    ("LARGEST_SETTING", "LARGEST_SETTING", raw::LARGEST_SETTING as usize),
    ("ENCODER_TOLERANCE", "ENCODER_TOLERANCE", raw::ENCODER_TOLERANCE as usize),
    ("MOST_EVENTS", "EVENTS", EVENTS),
    ("MOST_BYTES", "SHEET_BYTES", raw::SHEET_BYTES),
    ("MOST_NUMBERS", "SHEET_NUMBERS", raw::SHEET_NUMBERS),
    ("OFFERS_WORDS", "OFFERS_WORDS", raw::OFFERS_WORDS),
    ("ROWS_WORDS", "ROWS_WORDS", raw::ROWS_WORDS),
    ("MEMORY_WORDS", "MEMORY_WORDS", raw::MEMORY_WORDS),
];

#[test]
fn header_and_wrapper() {
    let code = lines("crates/limits/src/lib.rt", |line| line.starts_with("pub const"));
    let header = lines("include/belaykeel.h", |line| line.starts_with("#define BELAYKEEL_") && line.contains("/*"));
    let shown: Vec<String> = LIMITS.iter().map(|(_, name, limit)| format!("#define BELAYKEEL_{name} {limit} ")).collect();
    assert!(header.iter().zip(&shown).all(|(line, shown)| line.starts_with(shown)) && header.len() == shown.len(), "{header:?}");
    for (name, _, limit) in LIMITS {
        let named = ["u32", "u64", "usize"].map(|kind| format!("pub const {name}: {kind} = {limit};"));
        assert!(named.iter().any(|line| code.contains(line)), "{name} is not {limit} in the code");
    }
    let most_triples = ["u32", "usize"].map(|kind| format!("pub const MOST_TRIPLES: {kind} = {};", solver::MOST_TRIPLES));
    assert!(most_triples.iter().any(|line| code.contains(line)), "{most_triples:?}");
    assert_eq!(solver::LARGEST_SETTING, raw::LARGEST_SETTING);
    assert_eq!(solver::MOST_EVENTS, EVENTS);
    assert_eq!(solver::ENCODER_TOLERANCE, raw::ENCODER_TOLERANCE);
}
