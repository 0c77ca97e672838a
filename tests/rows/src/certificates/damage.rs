//! Messages with each of their elements damaged.
use x509::crl::{CertificateList, read_certificate_list};
use der_base::error::BerError;
use der_cursor::ReadError;
use der_extensions::{read_basic_constraints, read_general_names, read_key_usage};
use x509_keys::request::{
    Attribute, CertificationRequest, attribute_identifiers, read_extension_request, read_request,
};
use test_damage::{Outcome, Reader, damaged};
use der_values::HasArcs;
use x509::read_certificate;
use std::alloc::Global;
use test_tables::fault::Fault;
use test_tables::octets::octets;

/// What the reader of this name does with the message, and with its damaged copies that it doesn't refuse at the
/// place of the damage. Behind the name the offset of a string may follow, whose elements are damaged too.
pub fn damaged_text(alloc: Global, words: &str, input: &str) -> Result<String, Fault> {
    let (name, opened) = words.split_once(" opened ").unwrap_or((words, ""));
    let Some(kind) = Kind::named(name) else {
        return Err(Fault::NoSuchCall);
    };
    let message = octets(alloc, input)?;
    let text = match opened.parse::<usize>() {
        Ok(offset) => damaged(alloc, &message, &[offset], &kind)?,
        Err(_) => damaged(alloc, &message, &[], &kind)?,
    };
    Ok(text)
}

/// What a message is read as.
#[derive(Clone, Copy)]
enum Kind {
    Certificate,
    /// With the reason of each certificate.
    CertificateList,
    /// With the extensions that are requested.
    CertificationRequest,
    BasicConstraints,
    KeyUsage,
    GeneralNames,
}

impl Kind {
    fn named(name: &str) -> Option<Kind> {
        match name {
            "certificate" => Some(Kind::Certificate),
            "certificate_list" => Some(Kind::CertificateList),
            "certification_request" => Some(Kind::CertificationRequest),
            "basic_constraints" => Some(Kind::BasicConstraints),
            "key_usage" => Some(Kind::KeyUsage),
            "general_names" => Some(Kind::GeneralNames),
            _ => None,
        }
    }
}

impl Reader for Kind {
    fn outcome(&self, _alloc: Global, octets: &[u8]) -> Outcome {
        match self {
            Kind::Certificate => certificate(octets),
            Kind::CertificateList => certificate_list(octets),
            Kind::CertificationRequest => certification_request(octets),
            Kind::BasicConstraints => outcome_of(read_basic_constraints(octets).err()),
            Kind::KeyUsage => outcome_of(read_key_usage(octets).err()),
            Kind::GeneralNames => outcome_of(read_general_names(octets).err()),
        }
    }
}

/// What it means that a reader refuses octets so.
fn outcome_of(refused: Option<ReadError<BerError>>) -> Outcome {
    match refused {
        None => Outcome::Read,
        Some(refused) => Outcome::RefusedAt(refused.offset),
    }
}

fn certificate(octets: &[u8]) -> Outcome {
    match read_certificate(octets).err() {
        None => Outcome::Read,
        Some(refused) => Outcome::RefusedAt(refused.refusal.offset),
    }
}

fn certificate_list(octets: &[u8]) -> Outcome {
    match read_certificate_list(octets) {
        Ok(list) => reasons_outcome(&list),
        Err(refused) => Outcome::RefusedAt(refused.refusal.offset),
    }
}

/// Whether all reasons are read. The offset of a refusal is in the octets of the value.
fn reasons_outcome(list: &CertificateList<'_>) -> Outcome {
    let Some(entries) = list.tbs_cert_list.revoked_certificates else {
        return Outcome::Read;
    };
    if entries.iter().all(|entry| entry.reason().is_ok()) {
        Outcome::Read
    } else {
        Outcome::Refused
    }
}

fn certification_request(octets: &[u8]) -> Outcome {
    match read_request(octets) {
        Ok(request) => extensions_outcome(&request),
        Err(refused) => Outcome::RefusedAt(refused.refusal.offset),
    }
}

/// Whether the first attribute is a list of extensions. The offset of a refusal is in its values.
fn extensions_outcome(request: &CertificationRequest<'_>) -> Outcome {
    let attribute = request.info.attributes.iter().next();
    match attribute {
        Some(attribute) if are_extensions(&attribute) => Outcome::Read,
        _ => Outcome::Refused,
    }
}

/// Whether an attribute is a list of extensions.
fn are_extensions(attribute: &Attribute<'_>) -> bool {
    attribute
        .identifier
        .is(attribute_identifiers::EXTENSION_REQUEST)
        && read_extension_request(attribute.values).is_ok()
}
