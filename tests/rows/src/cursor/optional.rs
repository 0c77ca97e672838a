//! The calls that read a value that may be absent.
use crate::cursor::shown::{numbered, octets_text, shown, shown_optional};
use der_base::error::BerError;
use der_cursor::{Cursor, ReadError};
use der_values::BitString;
use std::alloc::{AllocError, Global};
use test_tables::fault::Fault;

/// What the call of this name reads, or its refusal.
pub fn optional_field(alloc: Global, cursor: &mut Cursor<'_>, call: &str) -> Result<String, Fault> {
    let text = match call {
        "optional_boolean" => shown_optional(alloc, cursor.optional_boolean()),
        "optional_integer" => shown_optional_octets(alloc, cursor.optional_integer()),
        "optional_u32" => shown_optional(alloc, cursor.optional_u32()),
        "optional_u64" => shown_optional(alloc, cursor.optional_u64()),
        "optional_octets" => shown_optional_octets(alloc, cursor.optional_octets()),
        "optional_bits" => shown_optional_bits(alloc, cursor.optional_bits()),
        "optional_oid" => shown_optional(alloc, cursor.optional_oid()),
        "optional_utf8_string" => shown_optional(alloc, cursor.optional_utf8_string()),
        "optional_generalized_time" => shown_optional(alloc, cursor.optional_generalized_time()),
        "boolean_or(false)" => shown(alloc, cursor.boolean_or(false)),
        "boolean_or(true)" => shown(alloc, cursor.boolean_or(true)),
        "u32_or(0)" => shown(alloc, cursor.u32_or(0)),
        _ => return Err(Fault::NoSuchCall),
    };
    Ok(text?)
}

/// The octets in hexadecimal digits.
fn shown_optional_octets(
    alloc: Global,
    read: Result<Option<&[u8]>, ReadError<BerError>>,
) -> Result<String, AllocError> {
    match read {
        Ok(Some(octets)) => octets_text(alloc, octets),
        Ok(None) => format!(in alloc; "absent"),
        Err(e) => format!(in alloc; "{e}"),
    }
}

/// The number of unused bits, and the octets.
fn shown_optional_bits(
    alloc: Global,
    read: Result<Option<BitString<'_>>, ReadError<BerError>>,
) -> Result<String, AllocError> {
    match read {
        Ok(Some(bits)) => numbered(alloc, u32::from(bits.unused), bits.octets),
        Ok(None) => format!(in alloc; "absent"),
        Err(e) => format!(in alloc; "{e}"),
    }
}
