//! Why a call was refused.

use std::fmt;

/// Defines the refusals from a table of numbers, names and sentences.
macro_rules! refusals {
    ($($number:literal $name:ident $sentence:literal)*) => {
        /// The cause of a refusal, by its number in README.md. A refused call leaves session, offers and output as they were, and one
        /// refused by 6 the work spaces too.
        #[derive(Clone, Copy, Debug, PartialEq, Eq, Hash)]
        #[repr(u32)]
        pub enum Refusal {
            $(#[doc = $sentence] $name = $number,)*
        }

        impl Refusal {
            /// Every refusal, by rising number.
            pub const ALL: [Refusal; 17] = [$(Refusal::$name,)*];

            fn sentence(self) -> &'static str {
                match self {
                    $(Refusal::$name => $sentence,)*
                }
            }
        }
    };
}

refusals! {
    1 EndsInside "Bytes or numbers end inside the sheet."
    2 IllFormed "A fourth group continues, or a last group is 0 after another group."
    3 OutOfRange "A number of the sheet is outside its range."
    4 OutOfOrder "Settings, rules or triples do not rise, or the fields of a rule or triple do not."
    5 Surplus "Bytes or numbers follow the sheet's end."
    6 TooShort "The offers list, a work space or the output is too short."
    7 Unknown "The engine is not 1 to 3, or the field or position is not on the sheet."
    8 TooNarrow "Never given: engine 2 runs at every reach."
    9 NoOrder "The order does not hold every field just one time."
    10 AddedAgain "The decision to add is in force."
    11 NotInForce "The decision to withdraw is not in force."
    12 NoRoom "There are 64 events and one is to be added."
    13 NothingPast "Back, and there is no event."
    14 WipedOut "Under the decisions that would hold after the call a field has no offer."
    15 Malformed "The session is malformed."
    18 NoSelection "The mask of selected fields is empty or names a field beyond the sheet."
    20 Retired "The writer met a rule of kind 2, which is read but no longer written."
}

impl Refusal {
    /// The number of the refusal, 1 to 15, 18 or 20.
    pub fn number(self) -> u32 {
        self as u32
    }

    /// The refusal with this number.
    ///
    /// ```
    /// use belaykeel::Refusal;
    /// assert_eq!(Refusal::from_number(14), Some(Refusal::WipedOut));
    /// assert_eq!(Refusal::from_number(20), Some(Refusal::Retired));
    /// assert_eq!(Refusal::from_number(0), None);
    /// ```
    pub fn from_number(number: u32) -> Option<Refusal> {
        Refusal::ALL.into_iter().find(|refusal| refusal.number() == number)
    }

    /// Nothing for 0, else the refusal. The library gives no other number.
    pub(crate) fn check(number: u32) -> Result<(), Refusal> {
        if number == 0 {
            return Ok(());
        }
        Err(Refusal::from_number(number).expect("a number of the table"))
    }
}

impl fmt::Display for Refusal {
    fn fmt(&self, formatter: &mut fmt::Formatter) -> fmt::Result {
        formatter.write_str(self.sentence())
    }
}

impl std::error::Error for Refusal {}
