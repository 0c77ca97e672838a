//! Values of the extensions of the web. Each reader's refusal is answered as it is printed.
use der_base::error::BerError;
use der_cursor::ReadError;
use der_extensions::{
    OrganizationIdentifier, QcStatements, SignedCertificateTimestamps, TlsFeatures,
    read_null, read_organization_identifier,
    read_qc_statements, read_signed_certificate_timestamps, read_tls_features,
};
use std::alloc::{AllocError, Global};
use test_tables::fault::Fault;
use test_tables::octets::{push_octets, push_word};
use test_words::push_number;

/// What the reader of this extension reads, if it is one of these.
pub fn web_value(alloc: Global, call: &str, octets: &[u8]) -> Result<Option<String>, Fault> {
    let text = match call {
        "ocsp_no_check" => null(alloc, read_null(octets)),
        "precertificate_poison" => null(alloc, read_null(octets)),
        "tls_features" => tls_features(alloc, read_tls_features(octets)),
        "signed_certificate_timestamps" => {
            timestamps(alloc, read_signed_certificate_timestamps(octets))
        }
        "qc_statements" => qc_statements(alloc, read_qc_statements(octets)),
        "organization_identifier" => {
            organization_identifier(alloc, read_organization_identifier(octets))
        }
        _ => return Ok(None),
    };
    Ok(Some(text?))
}

fn null(alloc: Global, read: Result<(), ReadError<BerError>>) -> Result<String, AllocError> {
    match read {
        Ok(()) => format!(in alloc; "null"),
        Err(e) => format!(in alloc; "{e}"),
    }
}

fn tls_features(
    alloc: Global,
    read: Result<TlsFeatures<'_>, ReadError<BerError>>,
) -> Result<String, AllocError> {
    match read {
        Ok(features) => features_text(alloc, &features),
        Err(e) => format!(in alloc; "{e}"),
    }
}

/// The numbers.
fn features_text(alloc: Global, features: &TlsFeatures<'_>) -> Result<String, AllocError> {
    let mut text = format!(in alloc; "features")?;
    for feature in features.iter() {
        push_number(&mut text, feature.number)?;
    }
    Ok(text)
}

fn timestamps(
    alloc: Global,
    read: Result<SignedCertificateTimestamps<'_>, ReadError<BerError>>,
) -> Result<String, AllocError> {
    match read {
        Ok(list) => timestamps_text(alloc, &list),
        Err(e) => format!(in alloc; "{e}"),
    }
}

/// The octets of each.
fn timestamps_text(
    alloc: Global,
    list: &SignedCertificateTimestamps<'_>,
) -> Result<String, AllocError> {
    let mut text = String::new(alloc);
    for timestamp in list.iter() {
        push_word(&mut text, "timestamp")?;
        push_octets(&mut text, timestamp)?;
    }
    Ok(text)
}

fn qc_statements(
    alloc: Global,
    read: Result<QcStatements<'_>, ReadError<BerError>>,
) -> Result<String, AllocError> {
    match read {
        Ok(statements) => statements_text(alloc, &statements),
        Err(e) => format!(in alloc; "{e}"),
    }
}

/// The octets of each identifier, and the content octets of what is said.
fn statements_text(alloc: Global, statements: &QcStatements<'_>) -> Result<String, AllocError> {
    let mut text = format!(in alloc; "statements")?;
    for statement in statements.iter() {
        push_octets(&mut text, statement.statement_id.as_bytes())?;
        if let Some(info) = statement.statement_info {
            push_word(&mut text, "info")?;
            push_octets(&mut text, info.bytes)?;
        }
    }
    Ok(text)
}

fn organization_identifier(
    alloc: Global,
    read: Result<OrganizationIdentifier<'_>, ReadError<BerError>>,
) -> Result<String, AllocError> {
    match read {
        Ok(value) => organization_text(alloc, &value),
        Err(e) => format!(in alloc; "{e}"),
    }
}

fn organization_text(
    alloc: Global,
    value: &OrganizationIdentifier<'_>,
) -> Result<String, AllocError> {
    let mut text = String::new(alloc);
    push_word(&mut text, value.registration_scheme_identifier)?;
    push_word(&mut text, value.registration_country)?;
    if let Some(state) = value.registration_state_or_province {
        push_word(&mut text, "state")?;
        push_word(&mut text, state)?;
    }
    push_word(&mut text, value.registration_reference)?;
    Ok(text)
}
