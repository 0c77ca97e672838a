//! All that is printed of a certificate.
use crate::certificates::values::{Value, read_values};
use anyhow::Result;
use x509::{Certificate, read_certificate};
use std::alloc::Global;

/// A certificate, and the values of its extensions in their order.
#[derive(Drop)]
pub struct Contents<'a> {
    pub certificate: Certificate<'a>,
    pub values: Vec<Value<'a>>,
}

/// Reads a certificate. Octets left over are refused. The signature isn't verified.
pub fn read_contents(alloc: Global, octets: &[u8]) -> Result<Contents<'_>> {
    let certificate = read_certificate(octets)?;
    let values = read_values(alloc, &certificate.tbs_certificate.extensions)?;
    Ok(Contents {
        certificate,
        values,
    })
}
