//! Parsers that combinators keep.
use der_parser::ber::{parse_ber_integer, parse_ber_u32};
use der_parser::der::{parse_der_integer, parse_der_u32};
use der_parser::error::BerResult;

pub fn integer_by_ber(i: &[u8]) -> BerResult<'_> {
    parse_ber_integer(i)
}

pub fn integer_by_der(i: &[u8]) -> BerResult<'_> {
    parse_der_integer(i)
}

pub fn number_by_ber(i: &[u8]) -> BerResult<'_, u32> {
    parse_ber_u32(i)
}

pub fn number_by_der(i: &[u8]) -> BerResult<'_, u32> {
    parse_der_u32(i)
}
