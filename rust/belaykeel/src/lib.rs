//! The offers of a set-up page, kept under choices and strikes that are withdrawn in any order.
//!
//! A [`Sheet`] has fields, their settings, and rules that allow pairs of settings or three in line. A [`Session`] holds the decisions in
//! force. Each call gives the [`Offers`]: the largest set of settings under these decisions that is arc consistent, and singleton arc
//! consistent in the fields of the [`Selection`] that open was given, over neighbourhoods of the sheet's reach; at reach 24 that is the
//! whole sheet. A call that is refused says why ([`Refusal`]) and changes nothing.
//!
//! No call chooses a set-up, and wiped out ([`Refusal::WipedOut`]) is the only verdict: offers in every field do not show that a complete
//! set-up exists.
//!
//! ```
//! use belaykeel::{Engine, Order, Refusal, Selection, Session, Sheet, WorkSpaces};
//! # fn main() -> Result<(), Refusal> {
//! // Two fields of 100, 200 and 300 micrometres; the first is at least 100 above the second.
//! let bytes = [
//!     0x02, 0x03, 0x64, 0xC8, 0x01, 0xAC, 0x02, 0x03, 0x64, 0xC8, 0x01, 0xAC, 0x02, 0x18, 0x01, 0x00, 0x01, 0x01, 0x64,
//! ];
//! let sheet = Sheet::from_bytes(bytes);
//! let (engine, order, mut spaces) = (Engine::Sac1, Order::Rising, WorkSpaces::new());
//! let mut session = Session::default();
//!
//! let offers = session.open(&sheet, engine, &order, &Selection::All, &mut spaces)?;
//! assert_eq!(offers.masks(), [6, 3]);
//! assert!(offers.positions(0).eq([1, 2]));
//!
//! let offers = session.strike(&sheet, engine, &order, 0, 2, &mut spaces)?;
//! assert_eq!(offers.masks(), [2, 1]);
//!
//! let refused = session.choose(&sheet, engine, &order, 1, 1, &mut spaces);
//! assert_eq!(refused, Err(Refusal::WipedOut));
//! assert_eq!(session.show(&sheet, engine, &order, &mut spaces)?.masks(), [2, 1]);
//! # Ok(())
//! # }
//! ```
//!
//! Of three fields that differ pairwise, one has a third setting, and must take it. Closing does not see this; the tests of that field do:
//!
//! ```
//! use belaykeel::{Engine, Order, Refusal, Selection, Session, Sheet, WorkSpaces};
//! # fn main() -> Result<(), Refusal> {
//! let sheet = Sheet::write(&[3, 2, 1, 2, 2, 1, 2, 3, 1, 2, 3, 24, 3, 0, 1, 3, 1, 0, 2, 3, 1, 1, 2, 3, 1])?;
//! let (mut session, mut spaces) = (Session::default(), WorkSpaces::new());
//! let mut open = |selection: Selection| session.open(&sheet, Engine::Sac1, &Order::Rising, &selection, &mut spaces);
//!
//! assert_eq!(open(Selection::Fields(vec![0, 1]))?.masks(), [3, 3, 7]);
//! assert_eq!(open(Selection::Fields(vec![2]))?.masks(), [3, 3, 4]);
//! assert_eq!(open(Selection::All)?.masks(), [3, 3, 4]);
//! assert_eq!(open(Selection::Fields(vec![2, 3])), Err(Refusal::NoSelection));
//! assert_eq!(session.selected, 0b111);
//! # Ok(())
//! # }
//! ```
//!
//! The calls on plain slices, where a space can be too short and an order wrong, are in [`raw`].

#![deny(unsafe_code)]
#![deny(missing_docs)]

mod method;
mod offers;
#[allow(unsafe_code)]
pub mod raw;
mod refusal;
mod session;
mod sheet;

pub use method::{Engine, Order, Selection, WorkSpaces};
pub use offers::Offers;
pub use refusal::Refusal;
pub use session::{Event, Session, EVENTS};
pub use sheet::Sheet;
