//! The calls that read one value.
use crate::cursor::optional::optional_field;
use crate::cursor::shown::{numbered, shown, shown_octets};
use der_base::any::Any;
use der_base::error::BerError;
use der_cursor::{Cursor, ReadError};
use der_values::BitString;
use std::alloc::{AllocError, Global};
use test_tables::fault::Fault;

/// What the call of this name reads, or its refusal.
pub fn field(alloc: Global, cursor: &mut Cursor<'_>, call: &str) -> Result<String, Fault> {
    let text = match call {
        "boolean" => shown(alloc, cursor.boolean()),
        "integer" => shown_octets(alloc, cursor.integer()),
        "u32" => shown(alloc, cursor.u32()),
        "u64" => shown(alloc, cursor.u64()),
        "i32" => shown(alloc, cursor.i32()),
        "i64" => shown(alloc, cursor.i64()),
        "enumerated" => shown(alloc, cursor.enumerated()),
        "bits" => shown_bits(alloc, cursor.bits()),
        "octets" => shown_octets(alloc, cursor.octets()),
        "null" => shown_null(alloc, cursor.null()),
        "oid" => shown(alloc, cursor.oid()),
        "any" => shown_any(alloc, cursor.any()),
        _ => return text_field(alloc, cursor, call),
    };
    Ok(text?)
}

/// The same of texts and times.
fn text_field(alloc: Global, cursor: &mut Cursor<'_>, call: &str) -> Result<String, Fault> {
    let text = match call {
        "utf8_string" => shown(alloc, cursor.utf8_string()),
        "printable_string" => shown(alloc, cursor.printable_string()),
        "ia5_string" => shown(alloc, cursor.ia5_string()),
        "general_string" => shown(alloc, cursor.general_string()),
        "utc_time" => shown(alloc, cursor.utc_time()),
        "generalized_time" => shown(alloc, cursor.generalized_time()),
        "time" => shown(alloc, cursor.time()),
        _ => return optional_field(alloc, cursor, call),
    };
    Ok(text?)
}

/// The number of unused bits, and the octets.
fn shown_bits(
    alloc: Global,
    read: Result<BitString<'_>, ReadError<BerError>>,
) -> Result<String, AllocError> {
    match read {
        Ok(bits) => numbered(alloc, u32::from(bits.unused), bits.octets),
        Err(e) => format!(in alloc; "{e}"),
    }
}

fn shown_null(alloc: Global, read: Result<(), ReadError<BerError>>) -> Result<String, AllocError> {
    match read {
        Ok(()) => format!(in alloc; "NULL"),
        Err(e) => format!(in alloc; "{e}"),
    }
}

/// The tag number, and the content octets.
fn shown_any(
    alloc: Global,
    read: Result<Any<'_>, ReadError<BerError>>,
) -> Result<String, AllocError> {
    match read {
        Ok(any) => numbered(alloc, any.tag().0, any.bytes),
        Err(e) => format!(in alloc; "{e}"),
    }
}
