//! A test case: a sheet, a session and a list of steps.

use crate::spaces::Fill;
use belaykeel::raw::{MEMORY_WORDS, OFFERS_WORDS, ROWS_WORDS, SHEET_BYTES};
use belaykeel::Session;
use public_calls::{Call, Value};
use std::collections::BTreeMap;

/// A call with all that it is given; of the lent spaces their lengths.
#[derive(Clone, Debug, PartialEq, Eq)]
pub struct Given {
    pub call: Call,
    /// Other bytes than the sheet in force.
    pub sheet: Option<Vec<u8>>,
    pub engine: u32,
    pub order: Vec<u8>,
    /// The lengths of the lent spaces, by their names.
    pub lengths: BTreeMap<&'static str, usize>,
    /// What the work spaces hold before the call.
    pub fill: Fill,
}

#[derive(Clone, Debug, PartialEq, Eq)]
pub enum Step {
    Call(Given),
    /// The session is replaced by this one.
    Session(Box<Session>),
    /// Another sheet is in force: later calls are given it.
    Sheet(Vec<u8>),
}

#[derive(Clone, Debug, PartialEq, Eq)]
pub struct Case {
    pub sheet: Vec<u8>,
    pub session: Box<Session>,
    pub steps: Vec<Step>,
}

/// A length of a lent space that is enough, and for those that every call with a session has just enough.
pub fn enough(space: &str) -> usize {
    match space {
        "offers" => OFFERS_WORDS,
        "rows" => ROWS_WORDS,
        "memory" => MEMORY_WORDS,
        _ => SHEET_BYTES,
    }
}

impl Given {
    /// A call with engine 1 and spaces that are long enough.
    pub fn plain(call: Call, order: Vec<u8>) -> Given {
        let lent = call.row().parameters.iter().filter(|parameter| parameter.sort.is_lent());
        let lengths = lent.map(|parameter| (parameter.name, enough(parameter.name))).collect();
        Given { call, sheet: None, engine: 1, order, lengths, fill: Fill::Word(0) }
    }

    /// The length of a lent space; 0 where the call has none of this name.
    pub fn length(&self, space: &str) -> usize {
        self.lengths.get(space).copied().unwrap_or(0)
    }
}

/// The number of this name among a call's own values.
pub fn number(call: &Call, name: &str) -> Option<u32> {
    let place = call.row().values.iter().position(|value| value.name == name)?;
    match call.values()[place] {
        Value::Number(number) => Some(number),
        _ => None,
    }
}

/// The same call with another number of this name, where it has one.
pub fn with_number(call: &Call, name: &str, number: u32) -> Call {
    let named = call.row().values.iter().zip(call.values());
    let values: Vec<Value> = named.map(|(value, held)| if value.name == name { Value::Number(number) } else { held }).collect();
    call.with(&values)
}

/// The field and position of a call, where it has them.
pub fn setting(call: &Call) -> Option<(u32, u32)> {
    number(call, "field").zip(number(call, "position"))
}

/// The same call of another setting.
pub fn with_setting(call: &Call, field: u32, position: u32) -> Call {
    with_number(&with_number(call, "field", field), "position", position)
}
