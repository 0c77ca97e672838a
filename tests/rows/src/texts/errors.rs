//! Errors by their names and parts.
use crate::texts::{class_of, tag_of};
use der_base::error::{BerError, DerConstraint, ErrorKind, GenError, Needed, OidParseError};
use der_base::header::{Class, Tag};
use std::io;

/// The errors that have no parts.
#[rattlefmt::skip]
const BER_ERRORS: &[(&str, BerError)] = &[
    ("BerTypeError", BerError::BerTypeError),
    ("BerValueError", BerError::BerValueError),
    ("BerMaxDepth", BerError::BerMaxDepth),
    ("InvalidLength", BerError::InvalidLength),
    ("InvalidTag", BerError::InvalidTag),
    ("ConstructExpected", BerError::ConstructExpected),
    ("ConstructUnexpected", BerError::ConstructUnexpected),
    ("IntegerTooLarge", BerError::IntegerTooLarge),
    ("IntegerNegative", BerError::IntegerNegative),
    ("StringInvalidCharset", BerError::StringInvalidCharset),
    ("InvalidDateTime", BerError::InvalidDateTime),
    ("Unsupported", BerError::Unsupported),
];

#[rattlefmt::skip]
const DER_CONSTRAINTS: &[(&str, DerConstraint)] = &[
    ("IndefiniteLength", DerConstraint::IndefiniteLength),
    ("LengthNotMinimal", DerConstraint::LengthNotMinimal),
    ("Constructed", DerConstraint::Constructed),
    ("InvalidBoolean", DerConstraint::InvalidBoolean),
    ("IntegerEmpty", DerConstraint::IntegerEmpty),
    ("IntegerLeadingZeroes", DerConstraint::IntegerLeadingZeroes),
    ("IntegerLeadingFF", DerConstraint::IntegerLeadingFF),
    ("MissingTimeZone", DerConstraint::MissingTimeZone),
    ("MissingSeconds", DerConstraint::MissingSeconds),
    ("FractionNotMinimal", DerConstraint::FractionNotMinimal),
    ("UnusedBitsNotZero", DerConstraint::UnusedBitsNotZero),
    ("SetOfOrder", DerConstraint::SetOfOrder),
];

/// The value of a name in a table.
fn named<T: Copy>(table: &[(&str, T)], wanted: &str) -> Option<T> {
    for (name, value) in table {
        if *name == wanted {
            return Some(*value);
        }
    }
    None
}

/// An error by its name and its parts.
pub fn ber_error(words: &[&str]) -> Option<BerError> {
    match words {
        ["UnknownTag", number] => Some(BerError::UnknownTag(number.parse().ok()?)),
        ["UnexpectedTag", "expected", expected, "actual", actual] => Some(
            BerError::UnexpectedTag {
                expected: expected_tag(expected)?,
                actual: tag_of(&[*actual])?,
            },
        ),
        ["UnexpectedClass", "expected", expected, "actual", actual] => {
            Some(BerError::UnexpectedClass {
                expected: expected_class(expected)?,
                actual: class_of(&[*actual])?,
            })
        }
        [
            "InvalidValue",
            number,
            "More",
            "than",
            "7",
            "unused",
            "bits",
        ] => Some(BerError::InvalidValue {
            tag: tag_of(&[*number])?,
            msg: "More than 7 unused bits",
        }),
        ["DerConstraintFailed", name] => Some(BerError::DerConstraintFailed(constraint(&[*name])?)),
        ["Incomplete", number] => Some(BerError::Incomplete(needed(number)?)),
        ["NomError", "Eof"] => Some(BerError::NomError(ErrorKind::Eof)),
        ["NomError", "Many0"] => Some(BerError::NomError(ErrorKind::Many0)),
        [name] => named(BER_ERRORS, name),
        _ => None,
    }
}

/// A tag by its number, or any.
fn expected_tag(word: &str) -> Option<Option<Tag>> {
    match word {
        "any" => Some(None),
        number => Some(Some(tag_of(&[number])?)),
    }
}

/// A class by its name, or any.
fn expected_class(word: &str) -> Option<Option<Class>> {
    match word {
        "any" => Some(None),
        name => Some(Some(class_of(&[name])?)),
    }
}

/// How many octets are missing.
fn needed(word: &str) -> Option<Needed> {
    match word {
        "unknown" => Some(Needed::Unknown),
        number => Some(Needed::Size(number.parse().ok()?)),
    }
}

/// A rule of DER by its name.
pub fn constraint(words: &[&str]) -> Option<DerConstraint> {
    match words {
        [name] => named(DER_CONSTRAINTS, name),
        _ => None,
    }
}

/// An error of the encoder by its name.
pub fn gen_error(words: &[&str]) -> Option<GenError> {
    match words {
        ["Io", "BrokenPipe"] => Some(GenError::Io(io::ErrorKind::BrokenPipe)),
        ["TooLarge"] => Some(GenError::TooLarge),
        ["OutOfMemory"] => Some(GenError::OutOfMemory),
        _ => None,
    }
}

/// An error of identifiers by its name.
pub fn oid_parse_error(words: &[&str]) -> Option<OidParseError> {
    match words {
        ["TooShort"] => Some(OidParseError::TooShort),
        ["FirstComponentsTooLarge"] => Some(OidParseError::FirstComponentsTooLarge),
        ["ParseInt"] => Some(OidParseError::ParseInt),
        ["OutOfMemory"] => Some(OidParseError::OutOfMemory),
        _ => None,
    }
}
