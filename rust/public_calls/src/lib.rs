//! The public calls of the library as one table ([`table!`]): names, parameters, answers, and the numbers that refuse each. The wrapper
//! declares the calls from it; the tests make, print, count and compare them by it. What a call does is not here.

#![forbid(unsafe_code)]

mod table;

/// What a parameter is.
#[derive(Clone, Copy, Debug, PartialEq, Eq)]
pub enum Sort {
    /// The session, which the call may alter.
    Session,
    /// The bytes of a sheet.
    Sheet,
    /// A number of 32 bits.
    Number,
    /// A list of bytes.
    Bytes,
    /// A list of 32-bit words.
    Words,
    /// A lent list of bytes that the call writes to.
    WrittenBytes,
    /// A lent list of 32-bit words that the call writes to.
    WrittenWords,
    /// A lent work space of 32-bit words: what it holds after the call is free, unless 6 refuses.
    Work,
}

impl Sort {
    /// Whether it is a space that the caller lends to be written to.
    pub fn is_lent(self) -> bool {
        matches!(self, Sort::WrittenBytes | Sort::WrittenWords | Sort::Work)
    }
}

/// A parameter of a call.
#[derive(Clone, Copy, Debug, PartialEq, Eq)]
pub struct Parameter {
    pub name: &'static str,
    pub sort: Sort,
}

/// A row of the table.
#[derive(Debug, PartialEq, Eq)]
pub struct Row {
    pub name: &'static str,
    /// The name in C.
    pub symbol: &'static str,
    /// In C's order.
    pub parameters: &'static [Parameter],
    /// Those that are the call's own values.
    pub values: &'static [Parameter],
    /// The type of the answer.
    pub answer: &'static str,
    /// What the answer holds beside the number.
    pub others: &'static [&'static str],
    /// The numbers that refuse the call, stage by stage.
    pub stages: &'static [&'static [u32]],
}

impl Row {
    /// Whether the call has a parameter of this name.
    pub fn has(&self, name: &str) -> bool {
        self.parameters.iter().any(|parameter| parameter.name == name)
    }

    /// Every number that refuses the call.
    pub fn numbers(&self) -> impl Iterator<Item = u32> {
        self.stages.iter().flat_map(|stage| stage.iter().copied())
    }

    /// The stage of a number that refuses the call.
    pub fn stage(&self, number: u32) -> Option<usize> {
        self.stages.iter().position(|stage| stage.contains(&number))
    }
}

/// A value of a call's own, by the sort of its parameter.
#[derive(Clone, Debug, PartialEq, Eq)]
pub enum Value {
    Number(types::Number),
    Sheet(types::Sheet),
    Bytes(types::Bytes),
    Words(types::Words),
}

/// The types of values by their sorts.
mod types {
    pub type Number = u32;
    pub type Sheet = Vec<u8>;
    pub type Bytes = Vec<u8>;
    pub type Words = Vec<u32>;
}

macro_rules! define {
    ($(
        $(#[$about:meta])*
        $Call:ident $name:ident $symbol:ident
            ($($before:ident $($before_len:ident)? : $before_sort:ident),*)
            $({ $($value:ident $($value_len:ident)? : $sort:ident),* })?
            ($($after:ident $($after_len:ident)? : $after_sort:ident),*)
            -> $answer:ident { $($other:ident),* } refused by $([$($number:literal)*])*;
    )*) => {
        /// A call with the values that are its own. What calls share (session, sheet, engine, order, lent spaces) stands beside it.
        #[derive(Clone, Debug, PartialEq, Eq)]
        pub enum Call {
            $($(#[$about])* $Call $(($(types::$sort),*))?,)*
        }

        /// A call without its values.
        #[derive(Clone, Copy, Debug, PartialEq, Eq, PartialOrd, Ord)]
        pub enum Name {
            $($Call,)*
        }

        /// The rows, in the order of [`Name`].
        const ROWS: &[Row] = &[$(Row {
            name: stringify!($name),
            symbol: stringify!($symbol),
            parameters: &[
                $(Parameter { name: stringify!($before), sort: Sort::$before_sort },)*
                $($(Parameter { name: stringify!($value), sort: Sort::$sort },)*)?
                $(Parameter { name: stringify!($after), sort: Sort::$after_sort },)*
            ],
            values: &[$($(Parameter { name: stringify!($value), sort: Sort::$sort },)*)?],
            answer: stringify!($answer),
            others: &[$(stringify!($other)),*],
            stages: &[$(&[$($number),*]),*],
        },)*];

        impl Name {
            /// Every call, in the order of the table.
            pub const ALL: &[Name] = &[$(Name::$Call),*];

            /// The call with these values, of the sorts that its row says.
            pub fn call(self, values: &[Value]) -> Option<Call> {
                match self {
                    $(Name::$Call => match values {
                        [$($(Value::$sort($value)),*)?] => Some(Call::$Call $(($($value.clone()),*))?),
                        _ => None,
                    },)*
                }
            }
        }

        impl Call {
            /// The call without its values.
            pub fn name(&self) -> Name {
                match self {
                    $(Call::$Call { .. } => Name::$Call,)*
                }
            }

            /// The values that are the call's own, in the order of its row.
            pub fn values(&self) -> Vec<Value> {
                match self {
                    $(Call::$Call $(($($value),*))? => vec![$($(Value::$sort($value.clone())),*)?],)*
                }
            }
        }
    };
}

table!(define);

impl Name {
    /// The row of the call.
    pub fn row(self) -> &'static Row {
        &ROWS[self as usize]
    }

    /// The call of a row's name.
    pub fn of(name: &str) -> Option<Name> {
        Name::ALL.iter().copied().find(|call| call.row().name == name)
    }
}

impl Call {
    /// The row of the call.
    pub fn row(&self) -> &'static Row {
        self.name().row()
    }

    /// The call with other values, of the same sorts.
    pub fn with(&self, values: &[Value]) -> Call {
        self.name().call(values).expect("values of the call's sorts")
    }
}
