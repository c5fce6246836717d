//! What is reached, from name to name, and the names that a part mentions.

use crate::read::{Declaration, Part, Source};
use std::collections::{BTreeMap, BTreeSet};
use std::path::Path;

/// The files by their paths below `crates/`, and what is reached in them.
#[derive(Default)]
pub struct Reach {
    sources: BTreeMap<String, Source>,
    /// For each file the places of its reached declarations.
    reached: BTreeMap<String, BTreeSet<usize>>,
    /// For each module of the toolchain, or made by it from a contract, the names that are used.
    pub toolchain: BTreeMap<String, BTreeSet<String>>,
    /// What no import, declaration or binder explains.
    pub unknown: BTreeSet<String>,
}

/// Where a name is declared: in a file of the project, or in a module of the toolchain.
enum Place {
    File(String, String),
    Module(String, String),
}

/// What the language has of itself.
const BUILT_IN: &[&str] = &[":", "→", "×", "=", "in", "record", "Type", "Unit", "tt", "⊥", "_", "where"];

/// The entries of a directory; none where there is no such directory.
fn entries(directory: &Path) -> Vec<String> {
    let read = std::fs::read_dir(directory).into_iter().flatten();
    read.flatten().map(|entry| entry.file_name().to_string_lossy().into_owned()).collect()
}

impl Reach {
    /// Reads the files of `src/` and `specs/`, and those that stand in `proofs/` itself. Nothing is reached yet.
    pub fn new(crates: &Path) -> Reach {
        let mut reach = Reach::default();
        let owners = entries(crates).into_iter();
        for directory in owners.flat_map(|owner| ["src", "specs", "proofs"].map(|part| format!("{owner}/{part}"))) {
            for file in entries(&crates.join(&directory)) {
                let path = format!("{directory}/{file}");
                let text = std::fs::read_to_string(crates.join(&path)).unwrap_or_default();
                match file.rsplit_once('.') {
                    Some((_, "rt")) => reach.sources.insert(path, Source::rt(&text)),
                    Some((_, "antt")) => reach.sources.insert(path, Source::antt(&text)),
                    _ => None,
                };
            }
        }
        reach
    }

    pub fn declarations(&self, file: &str) -> &[Declaration] {
        self.sources.get(file).map_or(&[], |source| &source.declarations)
    }

    /// The reached names of each file, in the order of the file.
    pub fn names(&self) -> BTreeMap<String, Vec<String>> {
        let name = |file: &str, at: &usize| self.declarations(file)[*at].name.clone();
        self.reached.iter().map(|(file, places)| (file.clone(), places.iter().map(|at| name(file, at)).collect())).collect()
    }

    /// Reaches the contract of every public function in the files of a directory.
    pub fn contracts(&mut self, directory: &str) {
        let files: Vec<String> = self.sources.keys().filter(|file| file.starts_with(directory)).cloned().collect();
        for file in files {
            let functions = self.declarations(&file).iter().filter(|declaration| declaration.is_function);
            for name in functions.map(|function| function.name.clone()).collect::<Vec<_>>() {
                self.name(&file, &name, false);
            }
        }
    }

    /// Reaches a name of a file: of a theorem its statement, of a definition all of it.
    pub fn name(&mut self, file: &str, name: &str, statement: bool) {
        let called = self.declarations(file).iter().enumerate().filter(|(_, declaration)| declaration.is_called(name));
        let places: Vec<usize> = called.map(|(at, _)| at).collect();
        if places.is_empty() && file.ends_with(".antt") {
            self.unknown.insert(format!("{file} does not declare `{name}`"));
        }
        for at in places {
            if self.reached.entry(file.to_string()).or_default().insert(at) {
                let declaration = &self.declarations(file)[at];
                let parts = &declaration.parts[..if statement { 1 } else { declaration.parts.len() }];
                let is_constructor = |token: &str| token != declaration.name && self.is_constructor(file, token);
                let mentioned = parts.iter().enumerate().flat_map(|(at, part)| {
                    let in_code = at == 0 && file.ends_with(".rt");
                    mentions(part, &is_constructor).into_iter().map(move |token| (in_code, token))
                });
                for (in_code, token) in mentioned.collect::<BTreeSet<_>>() {
                    self.mention(file, in_code, &token);
                }
            }
        }
    }

    /// Follows a mentioned token. In the types of code there are words that are not looked up.
    fn mention(&mut self, file: &str, in_code: bool, token: &str) {
        match self.place(file, token) {
            Some(Place::File(file, name)) => self.name(&file, &name, false),
            Some(Place::Module(module, name)) => {
                self.toolchain.entry(module).or_default().insert(name);
            }
            None if in_code || BUILT_IN.contains(&token) || token.starts_with(|c: char| c.is_ascii_digit()) => {}
            None => {
                self.unknown.insert(format!("{file} mentions `{token}` and neither imports nor declares it"));
            }
        }
    }

    /// Where the name that a token of a file stands for is declared; none where the file neither imports nor declares it.
    fn place(&self, file: &str, token: &str) -> Option<Place> {
        let (head, tail) = token.split_once('.').unwrap_or((token, ""));
        match self.sources[file].imports.get(head) {
            Some((module, name)) if name.is_empty() => Some(self.located(file, module, tail)),
            Some((module, name)) => Some(self.located(file, module, name)),
            None if self.declarations(file).iter().any(|declaration| declaration.is_called(head)) => {
                Some(Place::File(file.to_string(), head.to_string()))
            }
            None => None,
        }
    }

    /// Where a name of a module is declared. A module of code is a path `a::b`.
    fn located(&self, file: &str, module: &str, name: &str) -> Place {
        if let Some((owner, path)) = module.strip_prefix("Rattle.").and_then(|module| module.split_once('.')) {
            if let Some(declared) = path.strip_prefix("specs.declared.") {
                let declared = declared.trim_end_matches(".TheVariants");
                let (inside, name) = declared.rsplit_once('.').unwrap_or(("lib", declared));
                return Place::File(format!("{owner}/src/{}.rt", inside.replace('.', "/")), name.to_string());
            }
            let found = format!("{owner}/{}.antt", path.replace('.', "/"));
            if self.sources.contains_key(&found) {
                return Place::File(found, name.to_string());
            }
        }
        if module.contains('.') {
            return Place::Module(module.to_string(), name.to_string());
        }
        let (first, inside) = module.split_once("::").unwrap_or((module, "lib"));
        let found = format!("{first}/src/{inside}.rt");
        let own = format!("{}/src/{module}.rt", file.split('/').next().unwrap_or(file));
        Place::File(if self.sources.contains_key(&found) { found } else { own }, name.to_string())
    }

    /// Whether a token in a pattern is a constructor; every name of the toolchain and every type of code is taken for one.
    fn is_constructor(&self, file: &str, token: &str) -> bool {
        match self.place(file, token) {
            Some(Place::File(file, name)) => {
                file.ends_with(".rt") || token.contains('.') || self.declarations(&file).iter().any(|found| found.has_constructor(&name))
            }
            found => found.is_some(),
        }
    }
}

/// A level of bound names for each open bracket, with those that it binds once closed, as `(x : T)` does.
struct Scope<'a> {
    levels: Vec<(Vec<String>, Vec<String>)>,
    is_constructor: &'a dyn Fn(&str) -> bool,
    mentioned: Vec<String>,
}

/// The names that a part mentions: those that no binder, pattern, λ, `let` or `where` binds.
pub fn mentions(part: &Part, is_constructor: &dyn Fn(&str) -> bool) -> Vec<String> {
    let mut scope = Scope { levels: vec![Default::default()], is_constructor, mentioned: Vec::new() };
    scope.walk(&part.0, true);
    let helpers = part.1.iter().skip_while(|token| *token != "where").collect::<Vec<_>>();
    scope.levels[0].0.extend(helpers.windows(2).filter(|pair| pair[1] == ":").map(|pair| pair[0].clone()));
    scope.walk(&part.1, false);
    scope.mentioned
}

/// The names before the `:` of a bracket; none where it has no such names.
fn binder(tokens: &[String]) -> &[String] {
    let stops = |token: &String| ["(", ")", "{", "}", ":", ";", ",", "=", "λ", "let"].contains(&token.as_str());
    match tokens.iter().position(stops) {
        Some(length) if tokens[length] == ":" => &tokens[..length],
        _ => &[],
    }
}

impl Scope<'_> {
    /// Walks tokens from left to right. In patterns every name outside `(x : T)` that is no constructor is bound.
    fn walk(&mut self, tokens: &[String], patterns: bool) {
        let (mut at, mut binding) = (0, None);
        while at < tokens.len() {
            let token = tokens[at].as_str();
            let next = tokens.get(at + 1).map_or("", String::as_str);
            let last = self.levels.len() - 1;
            match token {
                "(" | "{" => {
                    let names = binder(&tokens[at + 1..]).to_vec();
                    at += names.len();
                    self.levels.push((Vec::new(), names));
                }
                ")" | "}" if last > 0 => {
                    let (_, names) = self.levels.pop().unwrap_or_default();
                    self.levels[last - 1].0.extend(names);
                }
                "," | ";" if last > 0 => self.levels[last].0.clear(),
                "λ" | "let" => binding = Some(last),
                "." | ":" | "=" if binding == Some(last) => binding = None,
                // the name of a field or of an implicit argument
                _ if next == "=" && at > 0 && ["{", ";"].contains(&tokens[at - 1].as_str()) => {}
                _ if binding.is_some_and(|depth| self.is_untyped(depth + 1)) => {
                    let depth = binding.unwrap_or(last);
                    self.levels[depth].0.push(token.to_string());
                }
                _ if patterns && self.is_untyped(0) && !(self.is_constructor)(token) => self.levels[0].0.push(token.to_string()),
                _ => self.mention(token),
            }
            at += 1;
        }
    }

    /// Whether no level from `depth` on is that of a binder `(x : T)`.
    fn is_untyped(&self, depth: usize) -> bool {
        self.levels.iter().skip(depth).all(|level| level.1.is_empty())
    }

    /// A name that is bound is not mentioned, and a projection is no name; of `a.b` the first name counts.
    fn mention(&mut self, token: &str) {
        let head = token.split('.').next().unwrap_or(token);
        if !head.is_empty() && !self.levels.iter().any(|level| level.0.iter().any(|name| name == head)) {
            self.mentioned.push(token.to_string());
        }
    }
}
