//! Each refusal has one name and number in the definitions, the code, the header and the wrapper, and one sentence in the header, the
//! wrapper and README.md. The code does not have 8, which no call gives.

use belaykeel::Refusal;
use harness::repository::lines;

/// The wrapper's name in capitals, with `_` between its words.
fn name(refusal: Refusal) -> String {
    let mut name = String::new();
    for letter in format!("{refusal:?}").chars() {
        if letter.is_uppercase() && !name.is_empty() {
            name.push('_');
        }
        name.push(letter.to_ascii_uppercase());
    }
    name
}

/// The wrapper's sentence as a part of one.
fn sentence(refusal: Refusal) -> String {
    let sentence = refusal.to_string();
    sentence[..1].to_lowercase() + sentence[1..].trim_end_matches('.')
}

fn expected(line: fn(Refusal) -> String) -> Vec<String> {
    Refusal::ALL.into_iter().map(line).collect()
}

#[test]
fn definitions_and_code() {
    let definitions = lines("crates/limits/specs/Refusals.antt", |line| line.contains(" = ") && line.starts_with(char::is_uppercase));
    assert_eq!(definitions, expected(|refusal| format!("{} = {}", name(refusal), refusal.number())));
    let given = |line: fn(Refusal) -> String| -> Vec<String> {
        Refusal::ALL.into_iter().filter(|&refusal| refusal != Refusal::TooNarrow).map(line).collect()
    };
    let numbers = lines("crates/limits/specs/Refusals.antt", |line| line.starts_with("number ") && line.contains(" = "));
    assert_eq!(numbers, given(|refusal| format!("number {refusal:?} = {}", name(refusal))));
    let constants = lines("crates/limits/src/refusals.rt", |line| line.starts_with("pub const"));
    assert_eq!(constants, given(|refusal| format!("pub const {}: u32 = {};", name(refusal), refusal.number())));
    let code = lines("crates/limits/src/refusals.rt", |line| line.starts_with("Refusal::"));
    assert_eq!(code, given(|refusal| format!("Refusal::{refusal:?} => {},", name(refusal))));
}

#[test]
fn header_and_readme() {
    let header = lines("include/belaykeel.h", |line| line.starts_with("BELAYKEEL_") && line.contains(" = "));
    assert_eq!(header[0], "BELAYKEEL_ACCEPTED = 0,");
    let numbers: Vec<String> = header[1..=Refusal::ALL.len()].iter().map(|line| line.replacen(", /*", " /*", 1)).collect();
    let line = |refusal| format!("BELAYKEEL_{} = {} /* {} */", name(refusal), refusal.number(), sentence(refusal));
    assert_eq!(numbers, expected(line));
    let readme = lines("README.md", |line| line.starts_with("| "));
    for row in expected(|refusal| format!("| {} | {} |", refusal.number(), sentence(refusal))) {
        assert!(readme.contains(&row), "README.md lacks the row {row}");
    }
}
