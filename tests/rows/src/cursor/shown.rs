//! What a call returns, as a text.
use der_base::error::BerError;
use der_cursor::ReadError;
use std::alloc::{AllocError, Global};
use std::fmt::Display;
use test_tables::octets::push_octets;

/// The value, or the refusal.
pub fn shown<T: Display + Drop>(
    alloc: Global,
    read: Result<T, ReadError<BerError>>,
) -> Result<String, AllocError> {
    match read {
        Ok(value) => format!(in alloc; "{value}"),
        Err(e) => format!(in alloc; "{e}"),
    }
}

/// The value, `absent` where there is none, or the refusal.
pub fn shown_optional<T: Display + Drop>(
    alloc: Global,
    read: Result<Option<T>, ReadError<BerError>>,
) -> Result<String, AllocError> {
    match read {
        Ok(Some(value)) => format!(in alloc; "{value}"),
        Ok(None) => format!(in alloc; "absent"),
        Err(e) => format!(in alloc; "{e}"),
    }
}

/// The octets in hexadecimal digits, or the refusal.
pub fn shown_octets(
    alloc: Global,
    read: Result<&[u8], ReadError<BerError>>,
) -> Result<String, AllocError> {
    match read {
        Ok(octets) => octets_text(alloc, octets),
        Err(e) => format!(in alloc; "{e}"),
    }
}

/// Octets in hexadecimal digits.
pub fn octets_text(alloc: Global, octets: &[u8]) -> Result<String, AllocError> {
    let mut text = String::new(alloc);
    push_octets(&mut text, octets)?;
    Ok(text)
}

/// A number and octets.
pub fn numbered(alloc: Global, number: u32, octets: &[u8]) -> Result<String, AllocError> {
    let mut text = format!(in alloc; "{number}")?;
    push_octets(&mut text, octets)?;
    Ok(text)
}
