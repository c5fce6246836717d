//! The library through its wrapper.

use crate::library::{Answer, Calls, Lent};
use crate::linked::Linked;
use crate::selections::selection;
use belaykeel::raw::{MEMORY_WORDS, OFFERS_WORDS, ROWS_WORDS};
use belaykeel::{Engine, Offers, Order, Refusal, Session, Sheet, WorkSpaces};

/// Makes each call by the wrapper's method, wherever that can be asked for what is given, and else by the plain call.
#[derive(Default)]
pub struct Wrapped {
    spaces: WorkSpaces,
}

/// What a method of the session is given besides the call's own values.
struct Plain<'a> {
    sheet: Sheet,
    engine: Engine,
    order: Order,
    spaces: &'a mut WorkSpaces,
}

/// The number of a refusal.
fn refused(refusal: Refusal) -> Answer {
    Answer { number: refusal.number(), others: vec![] }
}

/// How many fields a sheet says that it has, at most 24.
pub fn fields(sheet: &[u8]) -> usize {
    sheet.first().map_or(0, |&first| usize::from(first).min(OFFERS_WORDS))
}

impl Wrapped {
    /// A call that gives offers, by a method; nothing where the wrapper has no such engine, or lends longer spaces than these.
    fn offers(&mut self, lent: &mut Lent, method: impl FnOnce(&mut Session, Plain) -> Result<Offers, Refusal>) -> Option<Answer> {
        let enough = lent.offers.len() >= OFFERS_WORDS && lent.rows.len() >= ROWS_WORDS && lent.memory.len() >= MEMORY_WORDS;
        let engine = Engine::ALL.into_iter().find(|engine| engine.number() == lent.engine).filter(|_| enough)?;
        let rising = lent.order.iter().copied().eq(0..fields(lent.sheet) as u8);
        let order = if rising { Order::Rising } else { Order::Listed(lent.order.to_vec()) };
        let given = Plain { sheet: Sheet::from_bytes(lent.sheet), engine, order, spaces: &mut self.spaces };
        let accepted = |offers: Offers| {
            lent.offers[..offers.fields()].copy_from_slice(offers.masks());
            Answer { number: 0, others: vec![] }
        };
        Some(method(lent.session, given).map_or_else(refused, accepted))
    }
}

/// Each of these calls by the method of its name.
macro_rules! by_method {
    ($($name:ident($($value:ident),*))*) => {$(
        fn $name(&mut self, lent: &mut Lent $(, $value: u32)*) -> Answer {
            let method = |session: &mut Session, given: Plain| {
                session.$name(&given.sheet, given.engine, &given.order $(, $value)*, given.spaces)
            };
            self.offers(lent, method).unwrap_or_else(|| Linked.$name(lent $(, $value)*))
        }
    )*};
}

impl Calls for Wrapped {
    by_method! {
        show()
        choose(field, position)
        strike(field, position)
        withdraw_choice(field, position)
        withdraw_strike(field, position)
        back()
        coil_on()
    }

    fn open(&mut self, lent: &mut Lent, selected: u32) -> Answer {
        let selection = selection(selected, fields(lent.sheet));
        let method = |session: &mut Session, given: Plain| session.open(&given.sheet, given.engine, &given.order, &selection, given.spaces);
        self.offers(lent, method).unwrap_or_else(|| Linked.open(lent, selected))
    }

    fn read(&mut self, lent: &mut Lent) -> Answer {
        match Sheet::from_bytes(lent.sheet).read() {
            Ok(numbers) if numbers.len() > lent.own("output").words().len() => Linked.read(lent),
            Ok(numbers) => {
                lent.own("output").words()[..numbers.len()].copy_from_slice(&numbers);
                Answer { number: 0, others: vec![numbers.len() as u64] }
            }
            Err(refusal) => Answer { others: vec![0], ..refused(refusal) },
        }
    }

    fn write(&mut self, lent: &mut Lent, numbers: &[u32]) -> Answer {
        match Sheet::write(numbers) {
            Ok(sheet) if sheet.as_bytes().len() > lent.own("output").bytes().len() => Linked.write(lent, numbers),
            Ok(sheet) => {
                lent.own("output").bytes()[..sheet.as_bytes().len()].copy_from_slice(sheet.as_bytes());
                Answer { number: 0, others: vec![sheet.as_bytes().len() as u64] }
            }
            Err(refusal) => Answer { others: vec![0], ..refused(refusal) },
        }
    }
}
