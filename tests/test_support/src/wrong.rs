//! What a row finds wrong, as an error: a library may not end the process.
use crate::octets::TextFault;
use der_parser::error::{BerError, Err as Refused, GenError};
use std::alloc::{AllocError, AllocFailed};

/// Why a row doesn't hold.
#[derive(Debug, Drop)]
pub enum Wrong {
    /// What is otherwise than the row says.
    Answer(String),
    /// The row's octets are no text of octets.
    Octets(TextFault),
    /// What has to be read is refused.
    Refused(Refused<BerError>),
    /// What has to be written isn't.
    Written(GenError),
    /// The row's path leads to no item.
    NoItem,
    OutOfMemory,
}

impl From<TextFault> for Wrong {
    fn from(e: TextFault) -> Wrong {
        Wrong::Octets(e)
    }
}

impl From<Refused<BerError>> for Wrong {
    fn from(e: Refused<BerError>) -> Wrong {
        Wrong::Refused(e)
    }
}

impl From<GenError> for Wrong {
    fn from(e: GenError) -> Wrong {
        Wrong::Written(e)
    }
}

impl From<AllocError> for Wrong {
    fn from(_e: AllocError) -> Wrong {
        Wrong::OutOfMemory
    }
}

impl<T: Drop> From<AllocFailed<T>> for Wrong {
    fn from(_e: AllocFailed<T>) -> Wrong {
        Wrong::OutOfMemory
    }
}
