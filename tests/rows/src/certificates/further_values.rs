//! Values of the extensions about policies, of those of lists of revoked certificates, and of those of the web. Each
//! reader's refusal is answered as it is printed.
use crate::certificates::lists_of_extensions::list;
use crate::certificates::revocation_values::revocation_value;
use crate::certificates::web_values::web_value;
use der_base::error::BerError;
use der_cursor::ReadError;
use der_extensions::{
    PolicyConstraints, PolicyMappings, SubjectDirectoryAttributes, read_inhibit_any_policy,
    read_policy_constraints, read_policy_mappings, read_subject_directory_attributes,
};
use std::alloc::{AllocError, Global};
use test_tables::fault::Fault;
use test_tables::octets::{push_octets, push_word};

/// What the reader of this extension reads.
pub fn further_value(alloc: Global, call: &str, octets: &[u8]) -> Result<String, Fault> {
    let text = match call {
        "policy_mappings" => policy_mappings(alloc, read_policy_mappings(octets)),
        "policy_constraints" => policy_constraints(alloc, read_policy_constraints(octets)),
        "inhibit_any_policy" => inhibit_any_policy(alloc, read_inhibit_any_policy(octets)),
        "subject_directory_attributes" => {
            directory_attributes(alloc, read_subject_directory_attributes(octets))
        }
        _ => match revocation_value(alloc, call, octets)? {
            Some(text) => return Ok(text),
            None => match web_value(alloc, call, octets)? {
                Some(text) => return Ok(text),
                None => return list(alloc, call, octets),
            },
        },
    };
    Ok(text?)
}

fn policy_mappings(
    alloc: Global,
    read: Result<PolicyMappings<'_>, ReadError<BerError>>,
) -> Result<String, AllocError> {
    match read {
        Ok(mappings) => mappings_text(alloc, &mappings),
        Err(e) => format!(in alloc; "{e}"),
    }
}

/// The octets of each identifier.
fn mappings_text(alloc: Global, mappings: &PolicyMappings<'_>) -> Result<String, AllocError> {
    let mut text = String::new(alloc);
    for mapping in mappings.iter() {
        push_octets(&mut text, mapping.issuer_domain_policy.as_bytes())?;
        push_word(&mut text, "is")?;
        push_octets(&mut text, mapping.subject_domain_policy.as_bytes())?;
    }
    Ok(text)
}

fn policy_constraints(
    alloc: Global,
    read: Result<PolicyConstraints, ReadError<BerError>>,
) -> Result<String, AllocError> {
    match read {
        Ok(value) => constraints_text(alloc, &value),
        Err(e) => format!(in alloc; "{e}"),
    }
}

fn constraints_text(alloc: Global, value: &PolicyConstraints) -> Result<String, AllocError> {
    let mut text = format!(in alloc; "constraints")?;
    if let Some(number) = value.require_explicit_policy {
        write!(text, " explicit {number}")?;
    }
    if let Some(number) = value.inhibit_policy_mapping {
        write!(text, " mapping {number}")?;
    }
    Ok(text)
}

fn inhibit_any_policy(
    alloc: Global,
    read: Result<u32, ReadError<BerError>>,
) -> Result<String, AllocError> {
    match read {
        Ok(number) => format!(in alloc; "{number}"),
        Err(e) => format!(in alloc; "{e}"),
    }
}

fn directory_attributes(
    alloc: Global,
    read: Result<SubjectDirectoryAttributes<'_>, ReadError<BerError>>,
) -> Result<String, AllocError> {
    match read {
        Ok(attributes) => attributes_text(alloc, &attributes),
        Err(e) => format!(in alloc; "{e}"),
    }
}

/// The octets of each identifier, and the content octets of its values.
fn attributes_text(
    alloc: Global,
    attributes: &SubjectDirectoryAttributes<'_>,
) -> Result<String, AllocError> {
    let mut text = String::new(alloc);
    for attribute in attributes.iter() {
        push_octets(&mut text, attribute.identifier.as_bytes())?;
        for value in attribute.values.iter() {
            push_word(&mut text, "value")?;
            push_octets(&mut text, value.bytes)?;
        }
    }
    Ok(text)
}
