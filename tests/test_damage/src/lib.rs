//! Changed copies of a valid message, for rows that say what a reader does with them: copies with octets that a row
//! changes, and damaged copies of each element, for a systematic test of a reader.

mod changes;
mod copies;
mod elements;
mod error;
mod trial;

pub use changes::octets_of;
pub use error::DamageError;
pub use trial::{Outcome, Reader, damaged};
