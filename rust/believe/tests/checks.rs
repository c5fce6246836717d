//! What the checks of documents find in small ones, each with its file and line.

use believe::documents::{traced, Document, Tree};
use believe::list::{entries, Entry};

fn document(path: &str, text: &str) -> Document {
    Document { path: path.to_string(), text: text.to_string() }
}

fn page(text: &str) -> Document {
    document("docs/PAGE.md", text)
}

fn tree() -> Tree {
    let paths = "README.md docs/PAGE.md crates/masks/src crates/masks/src/lib.rt crates/masks/must-fail/cut_adds.edit rust/tests/cases.rs";
    let mut tree = Tree { paths: paths.split(' ').map(str::to_string).collect(), ..Default::default() };
    tree.learn("fn cut(x') -> Set·0 'quoted' first-++ half-");
    tree.learn(paths);
    tree
}

#[test]
fn a_line_of_141_characters() {
    let (longest, longer) = ("é".repeat(140), "é".repeat(141));
    assert_eq!(page(&format!("{longest}\n```\n{longer}\n```")).long_lines(), ["docs/PAGE.md:3: 141 characters"]);
}

#[test]
fn a_span_or_a_fence_that_does_not_end() {
    assert_eq!(page("`a` b\n```\n`\n```\n`a").open_quotes(), ["docs/PAGE.md:5: a backtick without its other"]);
    assert_eq!(page("```\n```\n\n```\n`a").open_quotes(), ["docs/PAGE.md:4: a fence without its other"]);
}

#[test]
fn a_link_that_leads_nowhere() {
    let there = "[a](../README.md), [b](PAGE.md#part) [c](https://a.b/c), [d](#part), [e](../crates/masks/src/)";
    let text = format!("{there}\n[`f`](README.md) [g](../rust/none)\n[h](../../README.md)");
    let found = ["2: the link (README.md)", "2: the link (../rust/none)", "3: the link (../../README.md)"];
    assert_eq!(page(&text).broken_links(&tree()), found.map(|link| format!("docs/PAGE.md:{link} leads nowhere")));
}

#[test]
fn a_file_that_is_not_there() {
    let there = "`masks/src/lib.rt` `tests/cases.rs` `docs/PAGE.md` `lib.rt` `.md` `a b.md` `masks/src/none`";
    let text = format!("{there}\n`masks/src/none.rt` and `None.antt`\n```\n`masks/none.rs`\n```");
    let found = ["masks/src/none.rt", "None.antt"].map(|file| format!("docs/PAGE.md:2: `{file}` is no file"));
    assert_eq!(page(&text).missing_files(&tree()), found);
}

#[test]
fn an_edit_that_is_not_there() {
    let text = "edits `masks/cut_adds`, `masks/src`, `masks/src/`, `specs/`, `./test`\nedits `masks/cut_add` and `mask/cut_adds`";
    let found = ["masks/cut_add", "mask/cut_adds"].map(|edit| format!("docs/PAGE.md:2: `{edit}` is no edit and no path"));
    assert_eq!(page(text).missing_edits(&tree()), found);
}

#[test]
fn a_name_that_is_in_no_source() {
    let known = "`cut` `x'` `quoted` `half-` `half` `first-++` `Set·0` `cut::quoted` `cut_adds` `cut none` `./none`";
    let text = format!("{known}\n`cu` `cut::none` `none`");
    let found = ["cu", "cut::none", "none"].map(|name| format!("docs/PAGE.md:2: `{name}` is in no source"));
    assert_eq!(page(&text).unknown_names(&tree()), found);
}

#[test]
fn paragraphs_that_are_not_traced() {
    let scope = page("**1.1** a\n**1.2** b\n\n**1.3** c **1.9** d\n**1.2** e\n**Note** f\n");
    let trace = document("docs/TRACE.md", "- **1.1, 1.4** a\n  **1.3** b\n- **1.2** c\n- **None** d\n");
    let found = [
        "docs/PAGE.md:5: 1.2 is numbered again",
        "docs/PAGE.md:4: 1.3 has no entry in docs/TRACE.md",
        "docs/TRACE.md:1: 1.4 is no paragraph of docs/PAGE.md",
    ];
    assert_eq!(traced(&scope, &trace), found);
    assert_eq!(traced(&page("1.1 a"), &page("")), ["docs/PAGE.md:1: no paragraph has a number"]);
}

#[test]
fn an_entry_is_read_as_it_is_printed() {
    let names = |count: usize| (0..count).map(|at| format!("name-{at}")).collect::<Vec<_>>();
    let says = "what `name-1` and the others say: ".repeat(9) + "no more.";
    let entry = |file: &str, count| Entry { file: file.to_string(), says: says.clone(), names: names(count) };
    let list = [entry("a/specs/A.antt", 1), entry("b/src/b.rt", 50)];
    let printed = list.each_ref().map(Entry::to_string).join("\n");
    assert!(printed.lines().all(|line| line.chars().count() <= 140) && printed.lines().count() > 10, "{printed}");
    assert_eq!(entries(&format!("- `no`: entry\n\n**Believe**: a\nb\n\n{printed}\n\n- `c`: d.\n  `e`\n")), list);
}
