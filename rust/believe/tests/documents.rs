//! The documents of the repository: short lines, and nothing named that is not there.

use believe::documents::{documents, traced, Document, Tree};
use believe::repository;
use std::sync::LazyLock;

static TREE: LazyLock<Tree> = LazyLock::new(|| Tree::read(&repository()));
static DOCUMENTS: LazyLock<Vec<Document>> = LazyLock::new(|| documents(&repository(), &TREE));

fn document(path: &str) -> &'static Document {
    DOCUMENTS.iter().find(|document| document.path == path).unwrap_or_else(|| panic!("{path} is not there"))
}

/// The pages that speak of today's code alone, so that each edit and each name in them is there.
const OF_TODAY: [&str; 5] = ["docs/AC4.md", "docs/ARCHITECTURE.md", "docs/DECISIONS.md", "docs/EXTENDING.md", "docs/TRACE.md"];

fn none(found: Vec<String>) {
    assert!(found.is_empty(), "\n{}", found.join("\n"));
}

#[test]
fn the_pages_are_read() {
    for path in ["README.md", "CHANGELOG.md", "docs/ARCHITECTURE.md", "docs/SCOPE.md", "docs/TRACE.md"] {
        assert!(!document(path).text.is_empty(), "{path}");
    }
}

#[test]
fn lines_are_short() {
    none(DOCUMENTS.iter().flat_map(Document::long_lines).collect());
}

#[test]
fn code_spans_end_on_their_line() {
    none(DOCUMENTS.iter().flat_map(Document::open_quotes).collect());
}

#[test]
fn links_lead_somewhere() {
    none(DOCUMENTS.iter().flat_map(|document| document.broken_links(&TREE)).collect());
}

#[test]
fn files_are_there() {
    none(DOCUMENTS.iter().flat_map(|document| document.missing_files(&TREE)).collect());
}

#[test]
fn edits_are_there() {
    none(OF_TODAY.iter().flat_map(|path| document(path).missing_edits(&TREE)).collect());
}

#[test]
fn names_are_in_a_source() {
    none(OF_TODAY.iter().flat_map(|path| document(path).unknown_names(&TREE)).collect());
}

#[test]
fn every_paragraph_of_the_scope_is_traced() {
    none(traced(document("docs/SCOPE.md"), document("docs/TRACE.md")));
}
