//! The library as it is linked.

use crate::library::{value, Answer, Calls, Lent, Space};
use belaykeel::raw;

/// The library as it is linked.
pub struct Linked;

/// What an answer holds beside the number, as words.
trait Words {
    fn words(&self) -> Vec<u64>;
}

impl Words for usize {
    fn words(&self) -> Vec<u64> {
        vec![*self as u64]
    }
}

/// A space out of those that are left.
fn taken<'a>(spaces: &mut Vec<(&'static str, Space<'a>)>, name: &str) -> Space<'a> {
    let place = spaces.iter().position(|(own, _)| *own == name).unwrap_or_else(|| panic!("{name} is not lent"));
    spaces.swap_remove(place).1
}

/// What is lent for a parameter of the table.
#[rustfmt::skip]
macro_rules! lent {
    ($lent:ident, session, Session) => { $lent.session };
    ($lent:ident, sheet, Sheet) => { $lent.sheet };
    ($lent:ident, engine, Number) => { $lent.engine };
    ($lent:ident, order, Bytes) => { $lent.order };
    ($lent:ident, offers, WrittenWords) => { $lent.offers };
    ($lent:ident, rows, Work) => { $lent.rows };
    ($lent:ident, memory, Work) => { $lent.memory };
    ($lent:ident, $own:ident, WrittenWords) => { taken(&mut $lent.own, stringify!($own)).words() };
    ($lent:ident, $own:ident, WrittenBytes) => { taken(&mut $lent.own, stringify!($own)).bytes() };
}

/// The answer of a type of the table, with these parts beside the number.
#[rustfmt::skip]
macro_rules! answer {
    (u32, $answer:ident) => { Answer { number: $answer, others: vec![] } };
    ($type:ident, $answer:ident $(, $other:ident)*) => {
        Answer { number: $answer.number, others: [$($answer.$other.words()),*].concat() }
    };
}

/// Each call by its function on slices.
macro_rules! linked {
    ($(
        $(#[$about:meta])*
        $Call:ident $name:ident $symbol:ident
            ($($before:ident $($before_len:ident)? : $before_sort:ident),*)
            $({ $($value:ident $($value_len:ident)? : $sort:ident),* })?
            ($($after:ident $($after_len:ident)? : $after_sort:ident),*)
            -> $answer:ident { $($other:ident),* } refused by $([$($number:literal)*])*;
    )*) => {
        impl Calls for Linked {$(
            #[inline]
            fn $name(&mut self, lent: &mut Lent $($(, $value: value!($sort))*)?) -> Answer {
                #[allow(unused_mut)]
                let mut lent = lent.again();
                let answer = raw::$name(
                    $(lent!(lent, $before, $before_sort),)*
                    $($($value,)*)?
                    $(lent!(lent, $after, $after_sort),)*
                );
                answer!($answer, answer $(, $other)*)
            }
        )*}
    };
}

public_calls::table!(linked);
