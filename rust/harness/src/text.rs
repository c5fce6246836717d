//! A case as text, printed where it fails and read to replay it, and a list of numbers as text.
//!
//! A line is a step: `sheet` and a sheet, `session` and its parts, or a call by the name of its row. The first sheet and session are those
//! that the case begins with. A call's parameters stand by their names, lent spaces with their lengths; a sheet is given where it is not
//! the one in force.

use crate::case::{Case, Given, Step};
use crate::spaces::Fill;
use belaykeel::{Event, Session};
use public_calls::{Name, Sort, Value};
use std::fmt::Write;

/// The numbers of a text. What follows a # on a line is left out.
pub fn numbers(text: &str) -> Vec<u32> {
    let lines = text.lines().map(|line| line.split('#').next().unwrap_or(""));
    lines.flat_map(str::split_whitespace).map(|token| token.parse().expect("a number")).collect()
}

/// The text of a case.
pub fn print(case: &Case) -> String {
    let mut text = format!("sheet {}\n{}\n", hex(&case.sheet), session_line(&case.session));
    for step in &case.steps {
        match step {
            Step::Sheet(sheet) => writeln!(text, "sheet {}", hex(sheet)).unwrap(),
            Step::Session(session) => writeln!(text, "{}", session_line(session)).unwrap(),
            Step::Call(given) => writeln!(text, "{}", call_line(given)).unwrap(),
        }
    }
    text
}

/// Bytes as an x and two digits for each.
fn hex(bytes: &[u8]) -> String {
    bytes.iter().fold("x".to_string(), |text, byte| text + &format!("{byte:02X}"))
}

fn list<T: ToString>(list: &[T]) -> String {
    list.iter().map(T::to_string).collect::<Vec<String>>().join(" ")
}

/// The parts of a session that are not 0, masks and events each with their place.
fn session_line(session: &Session) -> String {
    let mut line = "session".to_string();
    for (name, masks) in [("choices", &session.choices), ("strikes", &session.strikes)] {
        let held: Vec<String> = (0..24).filter(|&f| masks[f] != 0).map(|f| format!(" {f}:{}", masks[f])).collect();
        line += &if held.is_empty() { String::new() } else { format!(" {name}{}", held.concat()) };
    }
    let events = session.events.iter().enumerate().filter(|(_, event)| **event != Event::default());
    let events: Vec<String> = events.map(|(place, event)| format!(" {place}:{}:{}:{}", event.kind, event.field, event.position)).collect();
    line += &if events.is_empty() { String::new() } else { format!(" events{}", events.concat()) };
    for (name, number) in [("count", session.count), ("selected", session.selected)] {
        line += &if number == 0 { String::new() } else { format!(" {name} {number}") };
    }
    line
}

fn call_line(given: &Given) -> String {
    let row = given.call.row();
    let mut line = row.name.to_string();
    let mut values = given.call.values().into_iter();
    for parameter in row.parameters {
        let text = match (parameter.name, parameter.sort) {
            _ if row.values.contains(parameter) => value_text(&values.next().expect("a value for each")),
            (_, Sort::Session) => continue,
            (_, Sort::Sheet) => match &given.sheet {
                Some(sheet) => hex(sheet),
                None => continue,
            },
            ("engine", _) => given.engine.to_string(),
            ("order", _) => list(&given.order),
            (space, _) => given.length(space).to_string(),
        };
        write!(line, " {} {text}", parameter.name).unwrap();
    }
    let fill = match given.fill {
        Fill::Left => "left".to_string(),
        Fill::Word(word) => format!("word {word}"),
        Fill::Noise(seed) => format!("noise {seed}"),
    };
    format!("{line} fill {fill}")
}

fn value_text(value: &Value) -> String {
    match value {
        Value::Number(number) => number.to_string(),
        Value::Sheet(sheet) => hex(sheet),
        Value::Bytes(bytes) => list(bytes),
        Value::Words(words) => list(words),
    }
}

/// The case of a text that `print` made. A line that says how a step differs is passed over.
pub fn parse(text: &str) -> Case {
    let mut case = Case { sheet: vec![], session: Box::default(), steps: vec![] };
    let (mut on_a_sheet, mut begun) = (false, false);
    for line in text.lines().filter(|line| !line.trim().is_empty()) {
        let (name, rest) = line.trim().split_once(' ').unwrap_or((line.trim(), ""));
        match name {
            "step" => (),
            "sheet" if !on_a_sheet => (case.sheet, on_a_sheet) = (bytes(rest), true),
            "sheet" => case.steps.push(Step::Sheet(bytes(rest))),
            "session" if !begun => (case.session, begun) = (Box::new(session(rest)), true),
            "session" => case.steps.push(Step::Session(Box::new(session(rest)))),
            name => case.steps.push(Step::Call(call(name, rest))),
        }
    }
    case
}

fn bytes(text: &str) -> Vec<u8> {
    let digits = text.strip_prefix('x').expect("bytes begin with an x");
    (0..digits.len() / 2).map(|k| u8::from_str_radix(&digits[2 * k..2 * k + 2], 16).expect("two digits")).collect()
}

/// The names of a line, each with the tokens that follow it. Names begin with a letter; an x begins bytes.
fn named(rest: &str) -> Vec<(&str, Vec<&str>)> {
    let mut named: Vec<(&str, Vec<&str>)> = vec![];
    for token in rest.split_whitespace() {
        let is_name = token.starts_with(|c: char| c.is_ascii_lowercase() && c != 'x') && !["left", "word", "noise"].contains(&token);
        match named.last_mut() {
            Some((_, tokens)) if !is_name => tokens.push(token),
            _ => named.push((token, vec![])),
        }
    }
    named
}

fn number<T: std::str::FromStr>(token: &str) -> T {
    token.parse().unwrap_or_else(|_| panic!("no number: {token}"))
}

fn session(rest: &str) -> Session {
    let mut session = Session::default();
    for (name, tokens) in named(rest) {
        for token in tokens {
            let parts: Vec<u32> = token.split(':').map(number).collect();
            match (name, &parts[..]) {
                ("choices", &[field, mask]) => session.choices[field as usize] = mask,
                ("strikes", &[field, mask]) => session.strikes[field as usize] = mask,
                ("events", &[place, kind, field, position]) => session.events[place as usize] = Event { kind, field, position },
                ("count", &[count]) => session.count = count,
                ("selected", &[selected]) => session.selected = selected,
                _ => panic!("no part of a session: {name} {token}"),
            }
        }
    }
    session
}

fn call(name: &str, rest: &str) -> Given {
    let name = Name::of(name).unwrap_or_else(|| panic!("no call {name}"));
    let row = name.row();
    let named = named(rest);
    let tokens = |name: &str| named.iter().find(|(named, _)| *named == name).map(|(_, tokens)| &tokens[..]);
    let numbers = |name: &str| tokens(name).unwrap_or(&[]).iter().map(|token| number::<u32>(token)).collect::<Vec<u32>>();
    let values: Vec<Value> = row.values.iter().map(|value| value_of(value.sort, tokens(value.name).unwrap_or(&[]))).collect();
    let mut given = Given::plain(name.call(&values).expect("the values of the call"), vec![]);
    given.engine = numbers("engine").first().copied().unwrap_or(1);
    given.order = numbers("order").into_iter().map(|field| field as u8).collect();
    for (space, length) in &mut given.lengths {
        *length = numbers(space)[0] as usize;
    }
    given.sheet = tokens("sheet").map(|tokens| bytes(tokens[0]));
    given.fill = match tokens("fill") {
        Some(["word", word]) => Fill::Word(number(word)),
        Some(["noise", seed]) => Fill::Noise(number(seed)),
        _ => Fill::Left,
    };
    given
}

fn value_of(sort: Sort, tokens: &[&str]) -> Value {
    match sort {
        Sort::Number => Value::Number(number(tokens[0])),
        Sort::Sheet => Value::Sheet(bytes(tokens[0])),
        Sort::Bytes => Value::Bytes(tokens.iter().map(|token| number(token)).collect()),
        _ => Value::Words(tokens.iter().map(|token| number(token)).collect()),
    }
}
