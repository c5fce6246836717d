//! The jobs of the library in plain Rust. The tests compare the proved code with it, and the programs `read_write_times`, `engines`,
//! `savings`, `calls` and `closings` time both. The program `selections` times the proved code with fewer fields selected, and
//! `triple_costs` whole calls on sheets with triples.

#![deny(unsafe_code)]

pub mod contestants;
pub mod effort;
pub mod measure;
pub mod plain;
#[allow(unsafe_code)]
pub mod proved;
pub mod report;
pub mod role;
pub mod sheets;
pub mod task;

/// The most fields of a sheet, and the most settings of a field.
pub const MOST: usize = 24;

/// The most triples of a sheet.
pub const MOST_TRIPLES: u32 = 32;

/// The reach at which every neighbourhood is the whole sheet.
pub const WHOLE_REACH: u32 = 24;

/// The domain of each field: bit v means position v. Zeros past the last field.
pub type Domains = [u32; MOST];

/// The offers, or nothing where the set is wiped out.
pub type Offers = Option<Domains>;
