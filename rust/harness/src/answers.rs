//! What a list of calls gives, through the wrapper.

use crate::case::enough;
use crate::library::{Lent, Library};
use crate::selections::all;
use crate::wrapped::{fields, Wrapped};
use belaykeel::{Engine, Session, Sheet};
use public_calls::Call;

/// What the last of these calls gives: the masks or the number. The calls before it are accepted.
pub fn answer(sheet: &Sheet, engine: Engine, calls: &[Call]) -> Result<Vec<u32>, u32> {
    let [mut offers, mut rows, mut memory] = ["offers", "rows", "memory"].map(|space| vec![0; enough(space)]);
    let order: Vec<u8> = (0..).take(fields(sheet.as_bytes())).collect();
    let (mut library, mut session) = (Wrapped::default(), Session::default());
    let mut make = |call: &Call| {
        let (sheet, engine, order) = (sheet.as_bytes(), engine.number(), &order[..]);
        let (session, offers, rows, memory) = (&mut session, &mut offers[..], &mut rows[..], &mut memory[..]);
        library.call(call, &mut Lent { session, sheet, engine, order, offers, rows, memory, own: vec![] }).number
    };
    let (end, before) = calls.split_last().expect("a call");
    before.iter().for_each(|call| assert_eq!(make(call), 0, "{call:?}"));
    match make(end) {
        0 => Ok(offers[..fields(sheet.as_bytes())].to_vec()),
        number => Err(number),
    }
}

/// The same after an open with every field selected; without a call, what that open gives.
pub fn last(sheet: &Sheet, engine: Engine, calls: &[Call]) -> Result<Vec<u32>, u32> {
    let open = Call::Open(all(fields(sheet.as_bytes())));
    answer(sheet, engine, &[&[open], calls].concat())
}
