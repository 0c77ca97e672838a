//! The readers of elements whose content isn't read.
use der_parser::ber::{Any, parse_ber_any};
use der_parser::error::BerResult;
use test_support::octets::octets;
use test_support::words::answer_of;
use std::alloc::Global;
use test_tables::fault::Fault;

/// A reader of elements whose content isn't read.
#[derive(Clone, Copy)]
pub enum AnyReader {
    FromBer,
    FromDer,
    ParseBerAny,
}

impl AnyReader {
    /// The reader of this name.
    pub fn named(name: &str) -> Option<AnyReader> {
        match name {
            "Any::from_ber" => Some(AnyReader::FromBer),
            "Any::from_der" => Some(AnyReader::FromDer),
            "parse_ber_any" => Some(AnyReader::ParseBerAny),
            _ => None,
        }
    }

    /// What the reader answers.
    pub fn answer(self, alloc: Global, input: &str) -> Result<String, Fault> {
        let input = octets(alloc, input)?;
        Ok(answer_of(alloc, self.read(&input))?)
    }

    fn read(self, input: &[u8]) -> BerResult<'_, Any<'_>> {
        match self {
            AnyReader::FromBer => Any::from_ber(input),
            AnyReader::FromDer => Any::from_der(input),
            AnyReader::ParseBerAny => parse_ber_any(input),
        }
    }
}
