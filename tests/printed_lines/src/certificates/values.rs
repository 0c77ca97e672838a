//! What three extensions say (RFC 5280 4.2.1).
use der_extensions::{
    BasicConstraints, GeneralNames, KnownExtension, known_extension, read_basic_constraints,
    read_general_names,
};
use der_parser::cursor::{Cursor, FieldError, Named, ReadError};
use der_parser::error::BerError;
use der_parser::values::BitString;
use x509::{Extension, Extensions};
use std::alloc::Global;

/// What an extension says.
#[derive(Drop)]
pub enum Value<'a> {
    /// Whether the key signs certificates, and how many may stand between (4.2.1.9).
    BasicConstraints(BasicConstraints),
    /// A bit for each use of the key (4.2.1.3).
    KeyUsage(BitString<'a>),
    /// Other names of the subject (4.2.1.6).
    SubjectAltName(GeneralNames<'a>),
    /// It isn't read.
    Other,
}

/// Reads the value of an extension. The offset of an error is that in the value.
pub fn read_value<'a>(extension: &Extension<'a>) -> Result<Value<'a>, FieldError> {
    let octets = extension.value;
    match known_extension(extension.identifier.as_bytes()) {
        Some(KnownExtension::KeyUsage) => read_key_usage(octets).named("keyUsage"),
        Some(KnownExtension::SubjectAltName) => read_names(octets).named("subjectAltName"),
        Some(KnownExtension::BasicConstraints) => {
            let constraints = read_basic_constraints(octets).named("basicConstraints")?;
            Ok(Value::BasicConstraints(constraints))
        }
        _ => Ok(Value::Other),
    }
}

/// The values of extensions, in order.
pub fn read_values<'a>(
    alloc: Global,
    extensions: &Extensions<'a>,
) -> anyhow::Result<Vec<Value<'a>>> {
    let mut values = Vec::new(alloc);
    for extension in extensions.iter() {
        values.push(read_value(&extension)?)?;
    }
    Ok(values)
}

/// Reads a KeyUsage. One that ends in a bit 0 is read too, since real roots have it.
fn read_key_usage(octets: &[u8]) -> Result<Value<'_>, ReadError<BerError>> {
    let mut value = Cursor::new(octets);
    let bits = value.bits()?;
    value.end()?;
    Ok(Value::KeyUsage(bits))
}

/// Reads a SubjectAltName.
fn read_names(octets: &[u8]) -> Result<Value<'_>, ReadError<BerError>> {
    let names = read_general_names(octets)?;
    Ok(Value::SubjectAltName(names))
}
