//! Certificates that are refused.
use x509::partial::{PartialCertificate, read_partial_certificate};
use std::alloc::{AllocError, Global};
use test_tables::fault::Fault;
use test_tables::octets::{push_octets, push_word};
use test_words::push_number;

/// The fields that are read, each after its name.
pub fn partial(alloc: Global, octets: &[u8]) -> Result<String, Fault> {
    let read = read_partial_certificate(octets);
    let mut text = String::new(alloc);
    push_identity(&mut text, &read)?;
    push_holder(&mut text, &read)?;
    push_ids(&mut text, &read)?;
    for extension in read.extensions.iter() {
        push_word(&mut text, "extension")?;
        push_octets(&mut text, extension.identifier.as_bytes())?;
    }
    if text.is_empty() {
        push_word(&mut text, "nothing")?;
    }
    Ok(text)
}

/// Adds the version, the serial number, the identifier of the algorithm, and the number of octets of the issuer.
fn push_identity(text: &mut String, read: &PartialCertificate<'_>) -> Result<(), AllocError> {
    if let Some(version) = read.version {
        push_word(text, "version")?;
        write!(text, " {version:?}")?;
    }
    if let Some(serial_number) = read.serial_number {
        push_word(text, "serial")?;
        push_octets(text, serial_number)?;
    }
    if let Some(signature) = &read.signature {
        push_word(text, "signature")?;
        push_octets(text, signature.algorithm.as_bytes())?;
    }
    if let Some(issuer) = read.issuer {
        push_word(text, "issuer")?;
        push_number(text, issuer.octets.len())?;
    }
    Ok(())
}

/// Adds the years of the validity, the number of octets of the subject, and the identifier of the key.
fn push_holder(text: &mut String, read: &PartialCertificate<'_>) -> Result<(), AllocError> {
    if let Some(validity) = read.validity {
        let from = validity.not_before.moment().year;
        let until = validity.not_after.moment().year;
        push_word(text, "from")?;
        write!(text, " {from} until {until}")?;
    }
    if let Some(subject) = read.subject {
        push_word(text, "subject")?;
        push_number(text, subject.octets.len())?;
    }
    if let Some(key) = &read.subject_public_key_info {
        push_word(text, "key")?;
        push_octets(text, key.algorithm.algorithm.as_bytes())?;
    }
    Ok(())
}

/// Adds the octets of the unique identifiers.
fn push_ids(text: &mut String, read: &PartialCertificate<'_>) -> Result<(), AllocError> {
    if let Some(id) = read.issuer_unique_id {
        push_word(text, "issuer id")?;
        push_octets(text, id.octets)?;
    }
    if let Some(id) = read.subject_unique_id {
        push_word(text, "subject id")?;
        push_octets(text, id.octets)?;
    }
    Ok(())
}
