//! Why a row can't be tried.
use crate::octets::TextFault;
use std::alloc::{AllocError, AllocFailed};
use thiserror::Error;

/// Why a row can't be tried.
#[derive(Debug, Drop, Error)]
pub enum Fault {
    #[error("no such call")]
    NoSuchCall,
    #[error("the input isn't what the call takes")]
    Input,
    #[error("no octets: {0}")]
    Octets(TextFault),
    #[error("there is no memory")]
    OutOfMemory,
}

impl From<TextFault> for Fault {
    fn from(e: TextFault) -> Fault {
        match e {
            TextFault::OutOfMemory => Fault::OutOfMemory,
            e => Fault::Octets(e),
        }
    }
}

impl From<AllocError> for Fault {
    fn from(_e: AllocError) -> Fault {
        Fault::OutOfMemory
    }
}

impl<T: Drop> From<AllocFailed<T>> for Fault {
    fn from(_e: AllocFailed<T>) -> Fault {
        Fault::OutOfMemory
    }
}
