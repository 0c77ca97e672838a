//! What the rows of all test crates are made of: octets as texts, what a reader
//! answers, the readers as values, and what is tried on the octets of each row.

pub mod calls;
pub mod fronts;
pub mod reader;
pub mod round_trips;
pub mod trials;
pub mod typed;
pub mod words;
pub mod wrong;

/// Octets as texts.
pub mod octets {
    pub use test_tables::octets::{TextFault, octets};
}
