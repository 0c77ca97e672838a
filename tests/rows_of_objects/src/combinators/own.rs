//! An error type of a caller, and parsers that answer it.
ghost use Rattle.std.specs.Prelude.{◌≡◌};
ghost use Rattle.rows_of_objects.specs.declared.combinators.own.OwnError.TheVariants.{BerError as BerErrorOf};
ghost use Rattle.rows_of_objects.specs.declared.combinators.own.OwnError.TheVariants.{NomError as NomErrorOf};

use der_parser::IResult;
use der_parser::ber::{BerObject, parse_ber_integer, parse_ber_u32};
use der_parser::error::{BerError, Err, ErrorKind, ParseError};
use test_support::words::{push_needed, push_refusal};
use std::alloc::AllocError;
use test_tables::octets::{push_octets, push_word};

/// An error type of a caller.
#[derive(Debug, PartialEq, Drop)]
pub enum OwnError<'a> {
    Variant1,
    BerError(BerError),
    NomError(&'a [u8], ErrorKind),
}

impl<'a> From<BerError> for OwnError<'a> {
    ghost from_gives = { λ e x. x ≡ BerErrorOf e };

    fn from(e: BerError) -> OwnError<'a> {
        OwnError::BerError(e)
    }
}

impl<'a> ParseError<&'a [u8]> for OwnError<'a> {
    ghost from_error_kind_gives = { λ input kind e. e ≡ NomErrorOf input kind };

    ghost append_gives = { λ _ _ other e. e ≡ other };

    fn from_error_kind(input: &'a [u8], kind: ErrorKind) -> OwnError<'a> {
        OwnError::NomError(input, kind)
    }

    fn append(_input: &'a [u8], _kind: ErrorKind, other: OwnError<'a>) -> OwnError<'a> {
        other
    }
}

/// What a parser with this error type answers.
pub type OwnResult<'a, T> = IResult<&'a [u8], T, OwnError<'a>>;

/// The number of an INTEGER. Incomplete passes, and every other refusal is Variant1.
pub fn own_number(i: &[u8]) -> OwnResult<'_, u32> {
    match parse_ber_u32(i) {
        Ok(read) => Ok(read),
        Err(Err::Incomplete(n)) => Err(Err::Incomplete(n)),
        Err(_) => Err(Err::Error(OwnError::Variant1)),
    }
}

/// An INTEGER. Every refusal is Variant1.
pub fn own_integer(i: &[u8]) -> OwnResult<'_, BerObject<'_>> {
    match parse_ber_integer(i) {
        Ok(read) => Ok(read),
        Err(_) => Err(Err::Error(OwnError::Variant1)),
    }
}

/// Adds the words of what is answered in place of a value.
pub fn push_own_refused(text: &mut String, refused: &Err<OwnError<'_>>) -> Result<(), AllocError> {
    match refused {
        Err::Incomplete(needed) => {
            push_word(text, "incomplete")?;
            push_needed(text, *needed)
        }
        Err::Error(e) => push_own_error(text, e),
        Err::Failure(e) => {
            push_word(text, "failure")?;
            push_own_error(text, e)
        }
        Err::OutOfMemory => push_word(text, "out of memory"),
    }
}

/// Adds the words of an error: those of the BerError that it is made of; `refused` and the variant's name, and with
/// `at` the octets that it keeps.
fn push_own_error(text: &mut String, error: &OwnError<'_>) -> Result<(), AllocError> {
    match error {
        OwnError::Variant1 => push_word(text, "refused Variant1"),
        OwnError::BerError(e) => push_refusal(text, e),
        OwnError::NomError(octets, kind) => {
            push_refusal(text, &BerError::NomError(*kind))?;
            push_word(text, "at")?;
            push_octets(text, octets)
        }
    }
}
