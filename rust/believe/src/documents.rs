//! What is checked of the documents: the lengths of lines, links, what stands in backticks, and the paragraphs that are traced.
//! A code span stands on one line; lines between fences are code, of which only the length is checked.

use std::collections::{BTreeMap, BTreeSet};
use std::path::Path;

/// The most characters of a line.
pub const WIDTH: usize = 140;

/// The endings of the files that documents name.
const ENDINGS: &[&str] = &[".antt", ".rt", ".rs", ".c", ".h", ".md", ".txt", ".bin", ".out"];

/// Where a path may begin.
const ROOTS: &[&str] = &["", "crates/", "rust/"];

/// The files and folders of the root that have the words that a name may be.
const SOURCES: &[&str] = &["crates", "rust", "include", "examples", "test", "run"];

/// The files and folders by their paths below the root of the repository, and the words of the sources and of their paths.
#[derive(Default)]
pub struct Tree {
    pub paths: BTreeSet<String>,
    pub words: BTreeSet<String>,
}

/// A document by its path below the root.
pub struct Document {
    pub path: String,
    pub text: String,
}

/// The runs of letters, digits and the marks that names have.
fn words(text: &str) -> impl Iterator<Item = &str> {
    text.split(|c: char| !c.is_alphanumeric() && !"-_'·".contains(c)).filter(|word| !word.is_empty())
}

/// Whether a line begins or ends a piece of code.
fn is_fence(line: &str) -> bool {
    line.trim_start().starts_with("```")
}

/// What stands in backticks in a line.
pub fn quoted(line: &str) -> impl Iterator<Item = &str> {
    line.split('`').skip(1).step_by(2)
}

impl Tree {
    /// Reads what is below a root, but for what is built.
    pub fn read(root: &Path) -> Tree {
        let mut tree = Tree::default();
        tree.add(root, "");
        tree
    }

    fn add(&mut self, root: &Path, folder: &str) {
        for entry in std::fs::read_dir(root.join(folder)).into_iter().flatten().flatten() {
            let name = entry.file_name().to_string_lossy().into_owned();
            let path = if folder.is_empty() { name.clone() } else { format!("{folder}/{name}") };
            if entry.path().is_dir() && ![".git", "target"].contains(&name.as_str()) {
                self.add(root, &path);
            } else if SOURCES.contains(&path.split('/').next().unwrap_or(&path)) {
                self.learn(&path);
                self.learn(&std::fs::read_to_string(entry.path()).unwrap_or_default());
            }
            self.paths.insert(path);
        }
    }

    /// Adds the words of a text, as they stand and without the quotes and dashes around them.
    pub fn learn(&mut self, text: &str) {
        for word in words(text) {
            for word in [word, word.trim_matches(['\'', '-'])] {
                if !self.words.contains(word) {
                    self.words.insert(word.to_string());
                }
            }
        }
    }

    /// Whether a path leads somewhere, from one of the roots.
    fn has(&self, path: &str) -> bool {
        ROOTS.iter().any(|root| self.paths.contains(&format!("{root}{}", path.trim_end_matches('/'))))
    }

    /// Whether some file has this name.
    fn has_file(&self, name: &str) -> bool {
        self.paths.iter().any(|path| path.rsplit('/').next() == Some(name))
    }

    /// Whether a crate has a must-fail edit, cited as `CRATE/LABEL`.
    fn has_edit(&self, cited: &str) -> bool {
        cited.split_once('/').is_some_and(|(owner, label)| self.paths.contains(&format!("crates/{owner}/must-fail/{label}.edit")))
    }
}

/// The pages of the root and of `docs/`.
pub fn documents(root: &Path, tree: &Tree) -> Vec<Document> {
    let is_document = |path: &&String| path.ends_with(".md") && (path.starts_with("docs/") || !path.contains('/'));
    let text = |path: &String| std::fs::read_to_string(root.join(path)).unwrap_or_default();
    tree.paths.iter().filter(is_document).map(|path| Document { path: path.clone(), text: text(path) }).collect()
}

impl Document {
    /// What a check finds in the lines outside fences, each with its place.
    fn found(&self, check: impl Fn(&str) -> Vec<String>) -> Vec<String> {
        let (mut found, mut is_code) = (Vec::new(), false);
        for (at, line) in self.text.lines().enumerate() {
            is_code ^= is_fence(line);
            if !is_code && !is_fence(line) {
                found.extend(check(line).into_iter().map(|what| format!("{}:{}: {what}", self.path, at + 1)));
            }
        }
        found
    }

    /// What a check finds in what stands in backticks.
    fn found_quoted(&self, is_wrong: impl Fn(&str) -> bool, why: &str) -> Vec<String> {
        self.found(|line| quoted(line).filter(|text| is_wrong(text)).map(|text| format!("`{text}` {why}")).collect())
    }

    /// Lines that are too long.
    pub fn long_lines(&self) -> Vec<String> {
        let lines = self.text.lines().enumerate().map(|(at, line)| (at + 1, line.chars().count()));
        lines.filter(|(_, length)| *length > WIDTH).map(|(at, length)| format!("{}:{at}: {length} characters", self.path)).collect()
    }

    /// Lines on which a code span does not end, and a fence that nothing closes: what follows would not be checked.
    pub fn open_quotes(&self) -> Vec<String> {
        let is_odd = |line: &str| line.matches('`').count() % 2 == 1;
        let spans = self.found(|line| is_odd(line).then(|| "a backtick without its other".to_string()).into_iter().collect());
        let fences: Vec<usize> = self.text.lines().enumerate().filter(|(_, line)| is_fence(line)).map(|(at, _)| at + 1).collect();
        let open = fences.last().filter(|_| fences.len() % 2 == 1);
        spans.into_iter().chain(open.map(|at| format!("{}:{at}: a fence without its other", self.path))).collect()
    }

    /// Links of this repository that lead nowhere.
    pub fn broken_links(&self, tree: &Tree) -> Vec<String> {
        let is_own = |link: &&str| !link.contains("://") && !link.starts_with("mailto:") && !link.starts_with('#');
        let is_broken = |link: &&str| !tree.paths.contains(&self.resolved(link));
        self.found(|line| {
            let links = line.split("](").skip(1).filter_map(|after| after.split(')').next());
            links.filter(is_own).filter(is_broken).map(|link| format!("the link ({link}) leads nowhere")).collect()
        })
    }

    /// The path below the root that a link of this document means.
    fn resolved(&self, link: &str) -> String {
        let mut parts: Vec<&str> = self.path.split('/').collect();
        parts.pop();
        for part in link.split('#').next().unwrap_or(link).split('/').filter(|part| !["", "."].contains(part)) {
            match part {
                ".." if !parts.is_empty() => drop(parts.pop()),
                _ => parts.push(part),
            }
        }
        parts.join("/")
    }

    /// Paths and names of files, known by their endings, that there are none of.
    pub fn missing_files(&self, tree: &Tree) -> Vec<String> {
        let is_file = |text: &str| ENDINGS.iter().any(|ending| text.len() > ending.len() && text.ends_with(ending)) && !text.contains(' ');
        let is_there = |text: &str| if text.contains('/') { tree.has(text) } else { tree.has_file(text) };
        self.found_quoted(|text| is_file(text) && !is_there(text), "is no file")
    }

    /// Edits `CRATE/LABEL` that there are none of; what has a slash and no dot is an edit or a path.
    pub fn missing_edits(&self, tree: &Tree) -> Vec<String> {
        let is_cited = |text: &str| text.trim_end_matches('/').contains('/') && !text.contains(['.', ' ']);
        self.found_quoted(|text| is_cited(text) && !tree.has(text) && !tree.has_edit(text), "is no edit and no path")
    }

    /// Names of one word, or of several with marks between them, of which a word is in no source.
    pub fn unknown_names(&self, tree: &Tree) -> Vec<String> {
        let is_name = |text: &str| !text.contains([' ', '/']);
        self.found_quoted(|text| is_name(text) && words(text).any(|word| !tree.words.contains(word)), "is in no source")
    }

    /// The numbers in the bold that a line begins with, after a prefix, where that begins with a digit; each with the numbers of its lines.
    fn numbers(&self, prefix: &str) -> BTreeMap<&str, Vec<usize>> {
        let mut found: BTreeMap<&str, Vec<usize>> = BTreeMap::new();
        for (at, line) in self.text.lines().enumerate() {
            let bold = line.strip_prefix(prefix).and_then(|rest| rest.strip_prefix("**")).and_then(|rest| rest.split("**").next());
            for number in bold.filter(|bold| bold.starts_with(|c: char| c.is_ascii_digit())).into_iter().flat_map(|bold| bold.split(',')) {
                found.entry(number.trim()).or_default().push(at + 1);
            }
        }
        found
    }
}

/// Paragraphs of the scope that are numbered twice or not traced, and traces of paragraphs that there are none of.
pub fn traced(scope: &Document, trace: &Document) -> Vec<String> {
    let (asked, shown) = (scope.numbers(""), trace.numbers("- "));
    let twice = asked.iter().filter(|(_, lines)| lines.len() > 1);
    let twice = twice.map(|(number, lines)| format!("{}:{}: {number} is numbered again", scope.path, lines[1]));
    let untraced = asked.iter().filter(|(number, _)| !shown.contains_key(*number));
    let untraced = untraced.map(|(number, lines)| format!("{}:{}: {number} has no entry in {}", scope.path, lines[0], trace.path));
    let unasked = shown.iter().filter(|(number, _)| !asked.contains_key(*number));
    let unasked = unasked.map(|(number, lines)| format!("{}:{}: {number} is no paragraph of {}", trace.path, lines[0], scope.path));
    let none = asked.is_empty().then(|| format!("{}:1: no paragraph has a number", scope.path));
    none.into_iter().chain(twice).chain(untraced).chain(unasked).collect()
}
