//! The prototypes of the header are those of the table of the public calls.

use harness::repository::text;
use public_calls::{Name, Parameter, Row, Sort};

/// A parameter in C, with its length where it is a slice.
fn in_c(parameter: &Parameter) -> String {
    let name = parameter.name;
    let word = match parameter.sort {
        Sort::Session => return format!("belaykeel_session *{name}"),
        Sort::Number => return format!("uint32_t {name}"),
        Sort::Sheet | Sort::Bytes => "const uint8_t",
        Sort::Words => "const uint32_t",
        Sort::WrittenBytes => "uint8_t",
        Sort::WrittenWords | Sort::Work => "uint32_t",
    };
    format!("{word} *{name}, size_t {name}_len")
}

fn prototype(row: &Row) -> String {
    let answer = if row.answer == "u32" { "uint32_t".to_string() } else { format!("belaykeel_{}", row.answer.to_lowercase()) };
    let parameters: Vec<String> = row.parameters.iter().map(in_c).collect();
    format!("{answer} {}({})", row.symbol, parameters.join(", "))
}

/// A text without what stands in comments.
fn without_comments(text: &str) -> String {
    text.split("/*").enumerate().map(|(place, part)| if place == 0 { part } else { part.split_once("*/").expect("an end").1 }).collect()
}

/// The header's prototypes, each on one line.
fn prototypes(header: &str) -> Vec<String> {
    let without = without_comments(header);
    let lines = without.lines().filter(|line| !line.starts_with('#')).collect::<Vec<&str>>().join(" ");
    let statements = lines.split([';', '{', '}']).map(|statement| statement.split_whitespace().collect::<Vec<&str>>().join(" "));
    statements.filter(|statement| statement.ends_with(')')).collect()
}

#[test]
fn prototypes_are_those_of_the_table() {
    let (mut header, mut table) =
        (prototypes(&text("include/belaykeel.h")), Vec::from_iter(Name::ALL.iter().map(|name| prototype(name.row()))));
    header.sort_unstable();
    table.sort_unstable();
    assert_eq!(header, table);
}
