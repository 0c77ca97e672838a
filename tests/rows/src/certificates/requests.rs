//! Certification requests, and lists of revoked certificates.
use x509::crl::read_certificate_list;
use x509_keys::request::{
    CertificationRequest, Values, attribute_identifiers, read_challenge_password,
    read_extension_request, read_request,
};
use der_values::HasArcs;
use x509::Name;
use std::alloc::{AllocError, Global};
use test_tables::fault::Fault;
use test_tables::octets::{push_octets, push_word};

/// `read`, or the refusal as it is printed.
pub fn certificate_list(alloc: Global, octets: &[u8]) -> Result<String, Fault> {
    let text = match read_certificate_list(octets).err() {
        None => format!(in alloc; "read")?,
        Some(refused) => format!(in alloc; "{refused}")?,
    };
    Ok(text)
}

/// The fields of a request, or the refusal as it is printed.
pub fn certification_request(alloc: Global, octets: &[u8]) -> Result<String, Fault> {
    match read_request(octets) {
        Ok(request) => Ok(fields_text(alloc, &request)?),
        Err(refused) => Ok(format!(in alloc; "{refused}")?),
    }
}

fn fields_text(alloc: Global, request: &CertificationRequest<'_>) -> Result<String, AllocError> {
    let mut text = String::new(alloc);
    push_name(&mut text, &request.info.subject)?;
    let key = &request.info.subject_public_key_info;
    push_word(&mut text, "key")?;
    write!(text, " {}", key.algorithm.algorithm)?;
    for attribute in request.info.attributes.iter() {
        if attribute
            .identifier
            .is(attribute_identifiers::EXTENSION_REQUEST)
        {
            push_extensions(&mut text, attribute.values)?;
        }
    }
    write!(text, " signature {}", request.signature_algorithm.algorithm)?;
    push_octets(&mut text, request.signature.octets)?;
    Ok(text)
}

/// Adds the attributes of a name.
fn push_name(text: &mut String, name: &Name<'_>) -> Result<(), AllocError> {
    for relative_name in name.relative_names() {
        for attribute in relative_name.attributes() {
            let value = str::from_utf8(attribute.value.bytes).unwrap_or("");
            push_word(text, "subject")?;
            write!(text, " {}={value}", attribute.identifier)?;
        }
    }
    Ok(())
}

/// Adds the extensions that are requested.
fn push_extensions(text: &mut String, values: Values<'_>) -> Result<(), AllocError> {
    let Ok(extensions) = read_extension_request(values) else {
        return push_word(text, "no extensions");
    };
    for extension in extensions.iter() {
        let critical = if extension.critical { " critical" } else { "" };
        write!(text, " extension {}{critical}", extension.identifier)?;
    }
    Ok(())
}

/// The password of a request: its octets as a text, or the refusal as it is printed.
pub fn request_password(alloc: Global, octets: &[u8]) -> Result<String, Fault> {
    let mut text = String::new(alloc);
    match read_request(octets) {
        Ok(request) => push_passwords(&mut text, &request)?,
        Err(refused) => write!(text, "{refused}")?,
    }
    Ok(text)
}

/// Adds the password of each attribute that is one.
fn push_passwords(text: &mut String, request: &CertificationRequest<'_>) -> Result<(), AllocError> {
    for attribute in request.info.attributes.iter() {
        if attribute
            .identifier
            .is(attribute_identifiers::CHALLENGE_PASSWORD)
        {
            push_password(text, attribute.values)?;
        }
    }
    Ok(())
}

/// Adds a password.
fn push_password(text: &mut String, values: Values<'_>) -> Result<(), AllocError> {
    match read_challenge_password(values) {
        Ok(password) => write!(text, "{:?}", str::from_utf8(password.bytes).unwrap_or("")),
        Err(refused) => write!(text, "{refused}"),
    }
}
