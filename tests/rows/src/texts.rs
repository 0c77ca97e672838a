//! The rows of texts: of errors, classes, tags and times, of identifiers with their arcs, and of elements.

mod elements;
mod errors;
mod identifiers;
mod times;

use der_base::header::{Class, Tag};
use std::alloc::Global;
use std::fmt;
use test_tables::fault::Fault;
use test_tables::run::Calls;

pub struct Texts;

impl Calls for Texts {
    fn answer(&self, alloc: Global, call: &str, input: &str) -> Result<String, Fault> {
        if let Some(answer) = elements::answer(alloc, call, input)? {
            return Ok(answer);
        }
        let words: Vec<&str> = input.split_ascii_whitespace().collect(alloc)?;
        match call {
            "BerError" => text_of(alloc, errors::ber_error(&words)),
            "DerConstraint" => text_of(alloc, errors::constraint(&words)),
            "GenError" => text_of(alloc, errors::gen_error(&words)),
            "OidParseError" => text_of(alloc, errors::oid_parse_error(&words)),
            "Class" => text_of(alloc, class_of(&words)),
            "Tag" => text_of(alloc, tag_of(&words)),
            "GeneralizedTime" => text_of(alloc, times::time(&words)),
            "UTCTime" => text_of(alloc, times::utc_time(&words)),
            "rfc5280_year" => text_of(alloc, times::rfc5280_year(&words)),
            _ => identifiers::answer(alloc, call, input),
        }
    }
}

/// The text that `Display` writes of the value of an input.
fn text_of<T: fmt::Display + Drop>(alloc: Global, value: Option<T>) -> Result<String, Fault> {
    match value {
        Some(value) => Ok(format!(in alloc; "{value}")?),
        None => Err(Fault::Input),
    }
}

/// A class by its name in small letters.
fn class_of(words: &[&str]) -> Option<Class> {
    match words {
        ["universal"] => Some(Class::Universal),
        ["application"] => Some(Class::Application),
        ["context-specific"] => Some(Class::ContextSpecific),
        ["private"] => Some(Class::Private),
        _ => None,
    }
}

/// A tag by its number.
fn tag_of(words: &[&str]) -> Option<Tag> {
    match words {
        [number] => Some(Tag(number.parse().ok()?)),
        _ => None,
    }
}
