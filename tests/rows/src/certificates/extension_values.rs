//! Values of extensions that are no lists. Each reader's refusal is answered as it is printed.
use crate::certificates::further_values::further_value;
use der_base::error::BerError;
use der_cursor::ReadError;
use der_extensions::{
    AuthorityKeyIdentifier, BasicConstraints, KeyUsage, NameConstraints, SequenceOf,
    read_authority_key_identifier, read_basic_constraints, read_key_usage, read_name_constraints,
    read_subject_key_identifier,
};
use std::alloc::{AllocError, Global};
use test_tables::fault::Fault;
use test_tables::octets::{push_octets, push_word};

/// What the reader of this extension reads.
pub fn extension_value(alloc: Global, call: &str, octets: &[u8]) -> Result<String, Fault> {
    let text = match call {
        "basic_constraints" => basic_constraints(alloc, read_basic_constraints(octets)),
        "key_usage" => key_usage(alloc, read_key_usage(octets)),
        "subject_key_identifier" => {
            subject_key_identifier(alloc, read_subject_key_identifier(octets))
        }
        "authority_key_identifier" => {
            authority_key_identifier(alloc, read_authority_key_identifier(octets))
        }
        "name_constraints" => name_constraints(alloc, read_name_constraints(octets)),
        _ => return further_value(alloc, call, octets),
    };
    Ok(text?)
}

fn basic_constraints(
    alloc: Global,
    read: Result<BasicConstraints, ReadError<BerError>>,
) -> Result<String, AllocError> {
    match read {
        Ok(value) => match value.path_length {
            Some(length) => format!(in alloc; "ca {} path {length}", value.ca),
            None => format!(in alloc; "ca {}", value.ca),
        },
        Err(e) => format!(in alloc; "{e}"),
    }
}

/// The usages, by their names.
fn key_usage(
    alloc: Global,
    read: Result<KeyUsage<'_>, ReadError<BerError>>,
) -> Result<String, AllocError> {
    match read {
        Ok(usage) => usages(alloc, &usage),
        Err(e) => format!(in alloc; "{e}"),
    }
}

fn usages(alloc: Global, usage: &KeyUsage<'_>) -> Result<String, AllocError> {
    let named = [
        (usage.digital_signature(), "digital_signature"),
        (usage.content_commitment(), "content_commitment"),
        (usage.key_encipherment(), "key_encipherment"),
        (usage.data_encipherment(), "data_encipherment"),
        (usage.key_agreement(), "key_agreement"),
        (usage.key_cert_sign(), "key_cert_sign"),
        (usage.crl_sign(), "crl_sign"),
        (usage.encipher_only(), "encipher_only"),
        (usage.decipher_only(), "decipher_only"),
    ];
    let mut text = String::new(alloc);
    for (is_set, name) in named {
        if is_set {
            push_word(&mut text, name)?;
        }
    }
    Ok(text)
}

fn subject_key_identifier(
    alloc: Global,
    read: Result<&[u8], ReadError<BerError>>,
) -> Result<String, AllocError> {
    match read {
        Ok(octets) => {
            let mut text = String::new(alloc);
            push_octets(&mut text, octets)?;
            Ok(text)
        }
        Err(e) => format!(in alloc; "{e}"),
    }
}

fn authority_key_identifier(
    alloc: Global,
    read: Result<AuthorityKeyIdentifier<'_>, ReadError<BerError>>,
) -> Result<String, AllocError> {
    match read {
        Ok(value) => key_identifier(alloc, value),
        Err(e) => format!(in alloc; "{e}"),
    }
}

fn key_identifier(alloc: Global, value: AuthorityKeyIdentifier<'_>) -> Result<String, AllocError> {
    let mut text = String::new(alloc);
    push_field(&mut text, "key", value.key_identifier)?;
    push_field(&mut text, "issuer", kept(value.authority_cert_issuer))?;
    push_field(&mut text, "serial", value.authority_cert_serial_number)?;
    Ok(text)
}

fn name_constraints(
    alloc: Global,
    read: Result<NameConstraints<'_>, ReadError<BerError>>,
) -> Result<String, AllocError> {
    match read {
        Ok(value) => subtrees(alloc, value),
        Err(e) => format!(in alloc; "{e}"),
    }
}

fn subtrees(alloc: Global, value: NameConstraints<'_>) -> Result<String, AllocError> {
    let mut text = String::new(alloc);
    push_field(&mut text, "permitted", kept(value.permitted_subtrees))?;
    push_field(&mut text, "excluded", kept(value.excluded_subtrees))?;
    Ok(text)
}

/// Adds a field of octets, if it is there.
fn push_field(text: &mut String, name: &str, octets: Option<&[u8]>) -> Result<(), AllocError> {
    let Some(octets) = octets else {
        return Ok(());
    };
    push_word(text, name)?;
    push_octets(text, octets)
}

/// The octets of a list that may be absent.
fn kept<T: Drop>(list: Option<SequenceOf<'_, T>>) -> Option<&[u8]> {
    match list {
        Some(list) => Some(list.octets),
        None => None,
    }
}
