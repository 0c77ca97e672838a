//! Words and errors of texts of modules.

use anyhow::Result;
use asn1_types::Types;
use der_elements::Rules;
use std::alloc::Global;
use type_words::words_text;

/// The words of octets by type A of a module with this inside, or the error of the module.
pub fn words_of(alloc: Global, head: &str, inside: &str, octets: &str) -> Result<String> {
    let text = format!(in alloc; "M DEFINITIONS ::= BEGIN {head} {inside}\nEND")?;
    let octets = hex::decode(alloc, octets)?;
    match Types::from_texts(alloc, &[text.as_bytes()]) {
        Ok(types) => match types.type_named("A") {
            Some(schema) => {
                let (words, _) = words_text(alloc, &octets, Rules::Ber, schema)?;
                Ok(String::from_utf8_lossy(alloc, &words)?)
            }
            None => Ok(String::from_str(alloc, "no type")?),
        },
        Err(error) => Ok(format!(in alloc; "{error}")?),
    }
}

/// The error of a module with this inside.
pub fn error_of(alloc: Global, inside: &str) -> Result<String> {
    let text = format!(in alloc; "M DEFINITIONS ::= BEGIN {inside}\nEND")?;
    match Types::from_texts(alloc, &[text.as_bytes()]) {
        Ok(_) => Ok(String::from_str(alloc, "no error")?),
        Err(error) => Ok(format!(in alloc; "{error}")?),
    }
}
