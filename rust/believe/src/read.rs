//! A file as its imports and its declarations, each in parts whose names can be looked up.

use std::collections::HashMap;

/// The patterns and binders of a piece of text, and the tokens that stand under them.
pub type Part = (Vec<String>, Vec<String>);

/// A definition, a theorem or a type; of a `.rt` file a type, or a function with its contract.
#[derive(Default)]
pub struct Declaration {
    pub name: String,
    pub is_function: bool,
    pub constructors: Vec<String>,
    /// The first part is the statement: a signature, or what stands before `where`.
    pub parts: Vec<Part>,
}

/// Imports give a token its module and its name there; of a module by its short name the name is empty.
#[derive(Default)]
pub struct Source {
    pub imports: HashMap<String, (String, String)>,
    pub declarations: Vec<Declaration>,
}

/// The tokens of a line: its comment dropped; brackets, `;`, `,` and the dot that ends the names of a λ stand alone.
pub fn tokens(line: &str) -> Vec<String> {
    let mut spaced = String::new();
    for c in line.chars() {
        match c {
            '(' | ')' | '{' | '}' | ';' | ',' => spaced.extend([' ', c, ' ']),
            _ => spaced.push(c),
        }
    }
    let words = spaced.split_whitespace().take_while(|word| !word.starts_with("--"));
    let parted = words.flat_map(|word| match word.strip_suffix('.') {
        Some(name) if !name.is_empty() => vec![name, "."],
        _ => vec![word],
    });
    parted.map(str::to_string).collect()
}

/// The symbols of an infix name: `⊆` of `◌⊆◌`. Any other name has none.
fn symbols(name: &str) -> impl Iterator<Item = &str> {
    let infix = name.contains('◌');
    name.split('◌').filter(move |symbol| infix && !symbol.is_empty())
}

impl Declaration {
    /// Whether a token stands for this declaration or one of its constructors.
    pub fn is_called(&self, token: &str) -> bool {
        self.name == token || symbols(&self.name).any(|symbol| symbol == token) || self.has_constructor(token)
    }

    pub fn has_constructor(&self, token: &str) -> bool {
        self.constructors.iter().any(|name| name == token || symbols(name).any(|symbol| symbol == token))
    }
}

/// A line of a `.antt` file: how far it is indented, and its tokens.
type Line = (usize, Vec<String>);

/// Lines as blocks: a line with the deeper ones after it and those that only close a bracket.
fn blocks(lines: &[Line]) -> Vec<&[Line]> {
    let (mut found, mut start) = (Vec::new(), 0);
    for at in 1..=lines.len() {
        if at == lines.len() || (lines[at].0 <= lines[start].0 && !["}", ")"].contains(&lines[at].1[0].as_str())) {
            found.push(&lines[start..at]);
            start = at;
        }
    }
    found
}

/// Where a token first stands outside all brackets.
fn outside(tokens: &[String], wanted: &str) -> Option<usize> {
    let mut depth = 0;
    tokens.iter().position(|token| {
        depth += ["(", "{"].contains(&token.as_str()) as i32 - [")", "}"].contains(&token.as_str()) as i32;
        depth == 0 && token == wanted
    })
}

/// The tokens of lines without the words that stand before a name.
fn joined(lines: &[Line]) -> Vec<String> {
    let words = lines.iter().flat_map(|line| &line.1).filter(|word| !["pub", "abbrev", "unfoldable", "axiom"].contains(&word.as_str()));
    words.cloned().collect()
}

/// What stands before `where`, and the lines after it.
fn header(block: &[Line]) -> (Vec<String>, &[Line]) {
    let lines = block.iter().position(|line| line.1.iter().any(|word| word == "where")).map_or(block.len(), |at| at + 1);
    let words = joined(&block[..lines]).into_iter().take_while(|word| word != "where").collect();
    (words, &block[lines..])
}

impl Source {
    /// Reads a `.antt` file.
    pub fn antt(text: &str) -> Source {
        let mut source = Source::default();
        let lines = text.lines().map(|line| (line.len() - line.trim_start().len(), tokens(line)));
        let lines: Vec<Line> = lines.filter(|line| !line.1.is_empty()).collect();
        source.declare(&lines, &[]);
        source
    }

    /// Adds what the tokens after `use` import: `PATH.{a, b as c}`, `PATH` or `PATH as M`.
    fn import(&mut self, line: &[String]) {
        let path = &line[0];
        if line.get(1).is_none_or(|token| token != ".") {
            let alias = line.get(2).map_or(path.rsplit('.').next().unwrap_or(path), String::as_str);
            self.imports.insert(alias.to_string(), (path.clone(), String::new()));
            return;
        }
        for item in line[3..].split(|token| token == "," || token == "}").filter(|item| !item.is_empty()) {
            let (name, alias) = (&item[0], &item[item.len() - 1]);
            for token in symbols(alias).chain([alias.as_str()]) {
                self.imports.insert(token.to_string(), (path.clone(), name.clone()));
            }
        }
    }

    /// Adds the declarations of lines, which stand in modules with these parameters.
    fn declare(&mut self, lines: &[Line], params: &[String]) {
        for block in blocks(lines) {
            let words = joined(block);
            match words[0].as_str() {
                "use" => self.import(&words[1..]),
                "mod" | "infix" | "infixl" | "infixr" | "unfolding" => {}
                "mutual" => self.declare(&block[1..], params),
                "module" => {
                    let (header, inner) = header(block);
                    self.declare(inner, &[params, &header[2..]].concat());
                }
                "data" | "record" => self.declarations.push(of_type(block, params)),
                _ => self.signature_or_clause(&words, params),
            }
        }
    }

    /// `NAME : TYPE`, or a clause `PATTERNS = BODY` of the name before it.
    fn signature_or_clause(&mut self, words: &[String], params: &[String]) {
        let (colon, equals) = (outside(words, ":").unwrap_or(words.len()), outside(words, "=").unwrap_or(words.len()));
        let at = colon.min(equals);
        let rest = words.get(at + 1..).unwrap_or(&[]).to_vec();
        if colon < equals {
            let statement = ([params, &words[1..at]].concat(), rest);
            self.declarations.push(Declaration { name: words[0].clone(), parts: vec![statement], ..Default::default() });
        } else if let Some(last) = self.declarations.last_mut() {
            last.parts.push(([params, &words[..at]].concat(), rest));
        }
    }

    /// Reads a `.rt` file. What a `use` of code imports has the path `a::b` for its module.
    pub fn rt(text: &str) -> Source {
        let mut source = Source::default();
        let lines: Vec<&str> = text.lines().map(|line| line.split("//").next().unwrap_or("")).collect();
        let text = lines.join("\n");
        for statement in text.split(';').map(str::trim_start) {
            let statement = statement.strip_prefix("#![tactic(auto)]").map_or(statement, str::trim_start);
            if let Some(line) = statement.strip_prefix("ghost use ") {
                source.import(&tokens(line));
            } else if let Some((path, items)) = statement.strip_prefix("use ").and_then(|line| line.rsplit_once("::")) {
                for name in names(items) {
                    source.imports.entry(name.clone()).or_insert((path.to_string(), name));
                }
            }
        }
        let starts: Vec<usize> = (0..lines.len()).filter(|at| is_item(lines[*at])).chain([lines.len()]).collect();
        for piece in starts.windows(2).map(|pair| lines[pair[0]..pair[1]].join("\n")) {
            source.declarations.extend(of_code(&piece).or_else(|| of_function(&piece)));
        }
        source
    }
}

/// A data type or a record. A constructor or a field is a part of its own; a field binds its name in those after it.
fn of_type(block: &[Line], params: &[String]) -> Declaration {
    let (header, inner) = header(block);
    let colon = outside(&header, ":").unwrap_or(header.len());
    let mut binders = [params, &header[2..colon]].concat();
    let statement = (binders.clone(), header[colon..].to_vec());
    let mut declaration = Declaration { name: header[1].clone(), parts: vec![statement], ..Default::default() };
    for member in blocks(inner) {
        let words = joined(member);
        let colon = outside(&words, ":").unwrap_or(0);
        declaration.parts.push((binders.clone(), words[colon + 1..].to_vec()));
        if header[0] == "data" {
            declaration.constructors.extend_from_slice(&words[..colon]);
        } else {
            binders.extend([vec!["(".to_string()], words, vec![")".to_string()]].concat());
        }
    }
    declaration
}

/// Whether an item of code begins at a line.
fn is_item(line: &str) -> bool {
    let line = line.trim_start().trim_start_matches("pub ");
    ["fn ", "extern ", "struct ", "enum ", "impl ", "const ", "mod "].iter().any(|item| line.starts_with(item))
}

/// The names in code.
fn names(code: &str) -> Vec<String> {
    code.split(|c: char| !c.is_alphanumeric() && c != '_').filter(|name| !name.is_empty()).map(str::to_string).collect()
}

/// What stands in the braces that open first.
fn braced(text: &str) -> &str {
    let open = text.find('{').map_or(text.len(), |at| at + 1);
    let mut depth = 1;
    let end = text[open..].find(|c| {
        depth += (c == '{') as i32 - (c == '}') as i32;
        depth == 0
    });
    &text[open..end.map_or(text.len(), |end| open + end)]
}

/// A struct or an enum of code: the names of the types in its body; of an enum the variants stand first in their lines.
fn of_code(piece: &str) -> Option<Declaration> {
    let piece = piece.trim_start_matches("pub ");
    let (is_enum, rest) = (piece.starts_with("enum "), piece.strip_prefix("enum ").or(piece.strip_prefix("struct "))?);
    let lines = braced(rest).lines();
    let constructors: Vec<String> = lines.clone().filter(|_| is_enum).filter_map(|line| names(line).first().cloned()).collect();
    let types = lines.flat_map(|line| names(line.split_once(':').map_or(line, |(_, types)| types)));
    let types = types.filter(|name| !constructors.contains(name)).collect();
    Some(Declaration { name: names(rest)[0].clone(), is_function: false, constructors, parts: vec![(Vec::new(), types)] })
}

/// Whether what follows the word of a clause is its braces, or its name and then these.
fn is_clause(rest: &str) -> bool {
    rest.starts_with(' ') && rest.find('{').is_some_and(|open| names(&rest[..open]).len() < 2 && !rest[..open].contains(['(', ';']))
}

/// A public function: its statement is the types that it takes and gives; its parameters bind their names in its contract.
fn of_function(piece: &str) -> Option<Declaration> {
    let piece = piece.trim_start().strip_prefix("pub ")?;
    let piece = &piece[piece.find("fn ")? + 3..];
    let signature = &piece[piece.find('(')?..piece.find('{')?];
    let bound = signature.split(':').filter_map(|before| names(before).pop());
    let bound: Vec<String> = bound.chain(["self", "result"].map(str::to_string)).collect();
    let clauses = ["requires", "ensures"].into_iter().flat_map(|clause| piece.match_indices(clause));
    let clauses = clauses.filter(|(at, clause)| is_clause(&piece[at + clause.len()..]));
    let contract = clauses.flat_map(|(at, _)| braced(&piece[at..]).lines().flat_map(tokens).collect::<Vec<_>>()).collect();
    let parts = vec![(bound.clone(), names(signature)), (bound, contract)];
    Some(Declaration { name: names(piece)[0].clone(), is_function: true, constructors: Vec::new(), parts })
}
