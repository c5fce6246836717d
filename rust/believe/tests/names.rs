//! What is read of a file, and which names count: infix names, renamed imports, records, and names that are bound.

use believe::reach::mentions;
use believe::read::{Declaration, Source};

/// The names that the parts of a declaration mention, in their order, each time; the constructors of this test are `zero` and `suc`.
fn mentioned(declaration: &Declaration) -> Vec<String> {
    let is_constructor = |token: &str| ["zero", "suc"].contains(&token);
    let names = declaration.parts.iter().flat_map(|part| mentions(part, &is_constructor));
    names.filter(|name| ![":", "→", "=", "in", "record", "where"].contains(&name.as_str())).collect()
}

/// What the declaration with a name mentions.
fn of(text: &str, name: &str) -> Vec<String> {
    let source = Source::antt(text);
    mentioned(source.declarations.iter().find(|declaration| declaration.name == name).expect("a declaration"))
}

#[test]
fn an_infix_name_is_called_by_its_symbol() {
    let source = Source::antt("use A.B.{◌⊆◌}\ninfix 40 ◌⇒◌\npub ◌⇒◌ : T\na ⇒ b = a\n");
    assert_eq!(source.imports["⊆"], ("A.B".to_string(), "◌⊆◌".to_string()));
    assert!(source.declarations[0].is_called("⇒") && source.declarations[0].is_called("◌⇒◌"));
    assert_eq!(source.declarations.len(), 1);
    let code = Source::rt("\npub fn with_draw(x: u32) -> u32\n{\n    x\n}\n");
    assert!(!code.declarations[0].is_called("draw"));
}

#[test]
fn an_import_may_rename_a_name_or_a_module() {
    let imports = Source::antt("use A.B.{a, b as c, d}\nuse A.C as M\nuse A.D\n").imports;
    let target = |token: &str| imports[token].clone();
    assert_eq!(target("a"), ("A.B".to_string(), "a".to_string()));
    assert_eq!(target("c"), ("A.B".to_string(), "b".to_string()));
    assert_eq!(target("M"), ("A.C".to_string(), String::new()));
    assert_eq!(target("D"), ("A.D".to_string(), String::new()));
    assert!(!imports.contains_key("b"));
}

#[test]
fn a_field_is_bound_in_the_fields_after_it() {
    let text = "pub record R (s : S) : Type where\n  pub size : N\n  -- a comment\n  pub fits : size ≤ bound\n      → s.width ≡ size\n";
    assert_eq!(of(text, "R"), ["S", "Type", "S", "N", "S", "N", "≤", "bound", "≡"]);
}

#[test]
fn the_fields_of_a_record_that_is_made_are_no_names() {
    let text = "f : A → B\nf kind = record {\n  size = size;\n  kind = g kind;\n}\n";
    assert_eq!(of(text, "f"), ["A", "B", "size", "g"]);
}

#[test]
fn a_data_type_has_its_constructors() {
    let source = Source::antt("pub data D (n : N) : Type where\n  a b : D n\n  c : {x : X} → P x\n      → D n\n\nf : D\n");
    assert_eq!(source.declarations[0].constructors, ["a", "b", "c"]);
    assert!(source.declarations[0].is_called("b"));
    assert_eq!(mentioned(&source.declarations[0]), ["N", "Type", "N", "D", "N", "X", "P", "D"]);
}

#[test]
fn a_bound_name_hides_a_name_where_it_is_bound_and_nowhere_else() {
    let text = "f : (x : A x) → ((y : B) → C y) → D x y\nf (suc x) g = h (λ z. x z) z (λ (w : E (F w)). w) w\n";
    assert_eq!(of(text, "f"), ["A", "x", "B", "C", "D", "y", "suc", "h", "z", "E", "F", "w", "w"]);
    assert_eq!(of("f : A\nf = let x = y in x y\n", "f"), ["A", "y", "y"]);
    assert_eq!(of("f : A\nf = let x : B = y in let (u, v) = w in x u v\n", "f"), ["A", "B", "y", "w"]);
    assert_eq!(of("f : A\nf = λ (u, v). (u, v, w)\n", "f"), ["A", "w"]);
    assert_eq!(of("f : A\nf = (λ a. a, a)\n", "f"), ["A", "a"]);
    assert_eq!(of("f : A\nf = go b\n  where\n    go : B\n    go = c\n", "f"), ["A", "b", "B", "c"]);
}

#[test]
fn a_declaration_stands_under_the_parameters_of_its_modules() {
    let text = "module _ (P : Problem) where\n  module _ (f : N) where\n    abbrev pub g : T P\n    unfolding u\n    g = f P\n\nk : P\n";
    assert_eq!(of(text, "g"), ["Problem", "N", "T", "Problem", "N"]);
    assert_eq!(of(text, "k"), ["P"]);
}

const CODE: &str = "
use a::b::Answer;
ghost use A.B.{Gives};
ghost use A.C.{
    one, two as three,
};
use c::{three, four};

#[unsafe(no_mangle)]
pub extern \"C\" fn read(sheet: &[u8], output: &mut [u8]) -> Answer
    requires { P sheet }
    ensures given { Gives sheet.now result q }
{
    other(sheet)
}

fn other(sheet: &[u8]) -> u32
    ensures { Hidden result }
{
    0
}

pub struct Pair {
    pub left: One,
}

impl Pair {
    pub fn size(self) -> Two
        ensures { Sized self result }
    {
        0
    }
}

pub enum Sort {
    // a comment
    None,
    Some(Pair),
}
";

#[test]
fn a_public_function_has_its_types_and_its_contract() {
    let source = Source::rt(CODE);
    assert_eq!(source.imports["Answer"], ("a::b".to_string(), "Answer".to_string()));
    assert_eq!(source.imports["three"], ("A.C".to_string(), "two".to_string()));
    assert_eq!(source.imports["four"], ("c".to_string(), "four".to_string()));
    let of = |name: &str| source.declarations.iter().find(|declaration| declaration.name == name).map(mentioned);
    assert_eq!(of("read").unwrap(), ["u8", "mut", "u8", "Answer", "P", "Gives", "q"]);
    assert!(of("other").is_none());
    assert_eq!(of("size").unwrap(), ["Two", "Sized"]);
    assert_eq!((of("Pair").unwrap(), of("Sort").unwrap()), (vec!["One".to_string()], vec!["Pair".to_string()]));
    assert!(source.declarations.iter().any(|declaration| declaration.constructors == ["None", "Some"]));
}
