//! Critical extensions that the library doesn't know.
use der_extensions::has_unknown_critical;
use x509::Extensions;
use std::alloc::Global;
use test_tables::fault::Fault;

/// Whether one of the extensions, whose encodings follow each other, is critical and unknown.
pub fn unknown_critical(alloc: Global, octets: &[u8]) -> Result<String, Fault> {
    let extensions = Extensions { octets };
    Ok(format!(in alloc; "{}", has_unknown_critical(extensions))?)
}
