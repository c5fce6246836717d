//! A plain solver, written from the scope paper (01) and the later requests (02) alone to be compared with the library. It shares nothing
//! with the library or its wrapper but the names and parameters of the calls, and is made to be read, not to be fast.
//!
//! [`reading`] has the sheet's bytes and numbers with refusals 1 to 5, [`network`] the definitions of closing, testing and offering,
//! [`ledger`] the ledger and its steps, [`session`] a session's words, [`stages`] the causes of a refusal and [`effect`] all that a call
//! does.

pub mod effect;
pub mod ledger;
pub mod network;
pub mod reading;
pub mod session;
pub mod sheet;
pub mod stages;

pub use effect::{Effect, State};
pub use ledger::{Decision, Event, Ledger, Sort, Step};
pub use network::{Network, Set};
pub use session::Words;
pub use sheet::{Rule, Sheet, Triple};
pub use stages::Arguments;

/// The most fields of a sheet, and the most settings of a field.
pub const MOST: usize = 24;

/// The largest setting, and the largest c of a rule or a triple, in micrometres: requests 3 and 12 of 02.
pub const LARGEST_SETTING: u32 = 1_000_000;

/// How far the distance of a pair may be from c under kind 5, in micrometres: request 6 of 02.
pub const ENCODER_TOLERANCE: u32 = 2;

/// The most events of a session.
pub const MOST_EVENTS: usize = 64;

/// The most triple rules of a sheet: request 12 of 02.
pub const MOST_TRIPLES: u32 = 32;
