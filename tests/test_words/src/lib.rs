//! The words of rows for what the readers of the library return in place of a value, and for classes and tags.

use der_base::error::{BerError, DerConstraint, Err as Refused, ErrorKind, Needed};
use der_base::header::{Class, Tag};
use std::alloc::AllocError;
use std::fmt;
use test_tables::octets::{push_octets, push_word};

/// Adds what follows a value, if octets are left.
pub fn push_rest(text: &mut String, rest: &[u8]) -> Result<(), AllocError> {
    if rest.is_empty() {
        return Ok(());
    }
    push_word(text, "rest")?;
    push_octets(text, rest)
}

/// Adds the words of what a reader returns in place of a value.
pub fn push_refused(text: &mut String, refused: &Refused<BerError>) -> Result<(), AllocError> {
    match refused {
        Refused::Incomplete(needed) => {
            push_word(text, "incomplete")?;
            push_needed(text, *needed)
        }
        Refused::Error(e) => push_refusal(text, e),
        Refused::Failure(e) => {
            push_word(text, "failure")?;
            push_refusal(text, e)
        }
        Refused::OutOfMemory => push_word(text, "out of memory"),
    }
}

/// Adds the words of what is returned in place of a value, and where.
pub fn push_refused_at(
    text: &mut String,
    refused: &Refused<BerError>,
    offset: usize,
) -> Result<(), AllocError> {
    push_refused(text, refused)?;
    push_word(text, "at")?;
    push_number(text, offset)
}

/// Adds the words of a refusal: `broken` and the rule of DER, or `refused`, its name and its parts.
pub fn push_refusal(text: &mut String, refusal: &BerError) -> Result<(), AllocError> {
    if let BerError::DerConstraintFailed(constraint) = refusal {
        push_word(text, "broken")?;
        return push_word(text, constraint_name(*constraint));
    }
    push_word(text, "refused")?;
    push_word(text, refusal_name(refusal))?;
    push_parts(text, refusal)
}

/// The name of a refusal.
fn refusal_name(refusal: &BerError) -> &'static str {
    match refusal {
        BerError::BerTypeError => "BerTypeError",
        BerError::BerValueError => "BerValueError",
        BerError::BerMaxDepth => "BerMaxDepth",
        BerError::InvalidLength => "InvalidLength",
        BerError::InvalidTag => "InvalidTag",
        BerError::UnknownTag(_) => "UnknownTag",
        BerError::UnexpectedTag { .. } => "UnexpectedTag",
        BerError::UnexpectedClass { .. } => "UnexpectedClass",
        BerError::ConstructExpected => "ConstructExpected",
        BerError::ConstructUnexpected => "ConstructUnexpected",
        BerError::IntegerTooLarge => "IntegerTooLarge",
        BerError::IntegerNegative => "IntegerNegative",
        BerError::InvalidValue { .. } => "InvalidValue",
        BerError::StringInvalidCharset => "StringInvalidCharset",
        BerError::InvalidDateTime => "InvalidDateTime",
        BerError::Unsupported => "Unsupported",
        BerError::DerConstraintFailed(_) => "DerConstraintFailed",
        BerError::Incomplete(_) => "Incomplete",
        BerError::NomError(ErrorKind::Eof) => "NomError Eof",
        BerError::NomError(ErrorKind::Many0) => "NomError Many0",
    }
}

/// The name of a rule of DER.
fn constraint_name(constraint: DerConstraint) -> &'static str {
    match constraint {
        DerConstraint::IndefiniteLength => "IndefiniteLength",
        DerConstraint::LengthNotMinimal => "LengthNotMinimal",
        DerConstraint::Constructed => "Constructed",
        DerConstraint::InvalidBoolean => "InvalidBoolean",
        DerConstraint::IntegerEmpty => "IntegerEmpty",
        DerConstraint::IntegerLeadingZeroes => "IntegerLeadingZeroes",
        DerConstraint::IntegerLeadingFF => "IntegerLeadingFF",
        DerConstraint::MissingTimeZone => "MissingTimeZone",
        DerConstraint::MissingSeconds => "MissingSeconds",
        DerConstraint::FractionNotMinimal => "FractionNotMinimal",
        DerConstraint::UnusedBitsNotZero => "UnusedBitsNotZero",
        DerConstraint::SetOfOrder => "SetOfOrder",
    }
}

/// Adds the parts of a refusal that has some.
fn push_parts(text: &mut String, refusal: &BerError) -> Result<(), AllocError> {
    match refusal {
        BerError::UnknownTag(number) => push_number(text, *number),
        BerError::UnexpectedTag { expected, actual } => {
            push_word(text, "expected")?;
            push_expected_tag(text, *expected)?;
            push_word(text, "actual")?;
            push_number(text, actual.0)
        }
        BerError::UnexpectedClass { expected, actual } => {
            push_word(text, "expected")?;
            push_word(text, expected.map_or("any", class_name))?;
            push_word(text, "actual")?;
            push_class(text, *actual)
        }
        BerError::InvalidValue { tag, msg } => {
            push_number(text, tag.0)?;
            push_word(text, msg)
        }
        BerError::Incomplete(needed) => push_needed(text, *needed),
        _ => Ok(()),
    }
}

fn push_expected_tag(text: &mut String, expected: Option<Tag>) -> Result<(), AllocError> {
    match expected {
        Some(tag) => push_number(text, tag.0),
        None => push_word(text, "any"),
    }
}

/// Adds how many octets are missing.
pub fn push_needed(text: &mut String, needed: Needed) -> Result<(), AllocError> {
    match needed {
        Needed::Unknown => push_word(text, "unknown"),
        Needed::Size(n) => push_number(text, n),
    }
}

/// Adds a number as a word, after a space if it isn't the first.
pub fn push_number<N: fmt::Display + Drop>(text: &mut String, number: N) -> Result<(), AllocError> {
    if !text.is_empty() {
        text.push(' ')?;
    }
    write!(text, "{number}")
}

/// Adds the name of a class.
pub fn push_class(text: &mut String, class: Class) -> Result<(), AllocError> {
    push_word(text, class_name(class))
}

/// The name of a class, in small letters.
pub fn class_name(class: Class) -> &'static str {
    match class {
        Class::Universal => "universal",
        Class::Application => "application",
        Class::ContextSpecific => "context-specific",
        Class::Private => "private",
    }
}

/// Adds a class and a tag number.
pub fn push_tag(text: &mut String, class: Class, tag: Tag) -> Result<(), AllocError> {
    push_class(text, class)?;
    push_number(text, tag.0)
}
