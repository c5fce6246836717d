//! Tests of the library against the solver: random sheets, sessions and sequences of calls, compared after every call, and a failing case
//! made small and printed so that it can be replayed.
//!
//! BELAYKEEL_SEED sets the seed, BELAYKEEL_CALLS how many calls the random tests make together; each makes at least as many as its
//! coverage needs. BELAYKEEL_REPLAY names a file with a printed case for the test `replay`, and BELAYKEEL_STATICLIB the directory of
//! libbelaykeel.a where it is not the repository's own.

pub mod answers;
pub mod case;
pub mod causes;
pub mod drive;
pub mod faults;
pub mod forge;
pub mod gadgets;
pub mod library;
pub mod linked;
pub mod methods;
pub mod random_triples;
pub mod repository;
pub mod runner;
pub mod selections;
pub mod shapes;
pub mod sheets;
pub mod shrink;
pub mod smaller;
pub mod spaces;
pub mod steps;
pub mod tally;
pub mod taste;
pub mod text;
pub mod words;
pub mod wrapped;

pub use random::Random;
