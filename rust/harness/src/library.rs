//! What makes the calls: the library as it is linked, its wrapper, or another in their place. A call is made by the name of its row in the
//! table, by one dispatch for all.

use belaykeel::Session;
use public_calls::Call;

/// What a call is lent and given besides its own values.
pub struct Lent<'a> {
    pub session: &'a mut Session,
    pub sheet: &'a [u8],
    pub engine: u32,
    pub order: &'a [u8],
    pub offers: &'a mut [u32],
    pub rows: &'a mut [u32],
    pub memory: &'a mut [u32],
    /// The lent spaces that other calls do not have, by their names.
    pub own: Vec<(&'static str, Space<'a>)>,
}

/// A lent space of either sort of word.
pub enum Space<'a> {
    Bytes(&'a mut [u8]),
    Words(&'a mut [u32]),
}

/// What a call answers.
#[derive(Clone, Debug, PartialEq, Eq)]
pub struct Answer {
    pub number: u32,
    /// What it answers beside the number, in the order of its row.
    pub others: Vec<u64>,
}

impl<'a> Space<'a> {
    /// The space, lent once more.
    fn again(&mut self) -> Space<'_> {
        match self {
            Space::Bytes(bytes) => Space::Bytes(bytes),
            Space::Words(words) => Space::Words(words),
        }
    }

    pub fn bytes(self) -> &'a mut [u8] {
        match self {
            Space::Bytes(bytes) => bytes,
            Space::Words(_) => panic!("a space of words is lent where bytes are written"),
        }
    }

    pub fn words(self) -> &'a mut [u32] {
        match self {
            Space::Words(words) => words,
            Space::Bytes(_) => panic!("a space of bytes is lent where words are written"),
        }
    }
}

impl Lent<'_> {
    /// All of it, lent once more.
    pub fn again(&mut self) -> Lent<'_> {
        let Lent { session, sheet, engine, order, offers, rows, memory, own } = self;
        let own = own.iter_mut().map(|(name, space)| (*name, space.again())).collect();
        Lent { session, sheet, engine: *engine, order, offers, rows, memory, own }
    }

    /// One of the spaces that other calls do not have.
    pub fn own(&mut self, name: &str) -> Space<'_> {
        self.own.iter_mut().find(|(own, _)| *own == name).map(|(_, space)| space.again()).unwrap_or_else(|| panic!("{name} is not lent"))
    }
}

/// What answers the calls.
pub trait Library {
    fn call(&mut self, call: &Call, lent: &mut Lent) -> Answer;
}

/// The type by which a method is given a value of a sort.
#[rustfmt::skip]
macro_rules! value {
    (Number) => { u32 };
    (Sheet) => { &[u8] };
    (Bytes) => { &[u8] };
    (Words) => { &[u32] };
}
pub(crate) use value;

/// A value as a method is given it.
#[rustfmt::skip]
macro_rules! handed {
    (Number, $value:ident) => { *$value };
    (Sheet, $value:ident) => { $value };
    (Bytes, $value:ident) => { $value };
    (Words, $value:ident) => { $value };
}

/// A method for each call of the table, and the dispatch to them.
macro_rules! dispatch {
    ($(
        $(#[$about:meta])*
        $Call:ident $name:ident $symbol:ident
            ($($before:ident $($before_len:ident)? : $before_sort:ident),*)
            $({ $($value:ident $($value_len:ident)? : $sort:ident),* })?
            ($($after:ident $($after_len:ident)? : $after_sort:ident),*)
            -> $answer:ident { $($other:ident),* } refused by $([$($number:literal)*])*;
    )*) => {
        /// What makes each call by a method of its name.
        pub trait Calls {
            $($(#[$about])* fn $name(&mut self, lent: &mut Lent $($(, $value: value!($sort))*)?) -> Answer;)*
        }

        impl<C: Calls> Library for C {
            fn call(&mut self, call: &Call, lent: &mut Lent) -> Answer {
                match call {
                    $(Call::$Call $(($($value),*))? => self.$name(lent $($(, handed!($sort, $value))*)?),)*
                }
            }
        }
    };
}

public_calls::table!(dispatch);
