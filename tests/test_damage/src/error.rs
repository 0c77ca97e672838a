//! Why a message can't be damaged.
use der_base::error::{BerError, Err as Refused};
use std::alloc::{AllocError, AllocFailed};
use test_tables::fault::Fault;

/// Why a message can't be damaged.
#[derive(Debug, Drop)]
pub enum DamageError {
    /// A header is refused.
    Header(Refused<BerError>),
    /// An element has an indefinite length, or runs past the end of the message.
    Length,
    /// One octet more inside an element would lengthen its header, and move all places after it.
    HeaderGrows,
    OutOfMemory,
}

impl From<Refused<BerError>> for DamageError {
    fn from(e: Refused<BerError>) -> DamageError {
        DamageError::Header(e)
    }
}

impl From<AllocError> for DamageError {
    fn from(_e: AllocError) -> DamageError {
        DamageError::OutOfMemory
    }
}

impl<T: Drop> From<AllocFailed<T>> for DamageError {
    fn from(_e: AllocFailed<T>) -> DamageError {
        DamageError::OutOfMemory
    }
}

impl From<DamageError> for Fault {
    fn from(e: DamageError) -> Fault {
        match e {
            DamageError::OutOfMemory => Fault::OutOfMemory,
            _ => Fault::Input,
        }
    }
}
