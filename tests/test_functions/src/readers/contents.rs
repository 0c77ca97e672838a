//! What a combinator that keeps a parser, and one that reads a content, answer to their callers.
ghost use Rattle.std.specs.Prelude.{◌≡◌};
ghost use Rattle.test_functions.specs.declared.readers.contents.Met.TheVariants.{At};

use der_parser::IResult;
use der_parser::ber::{
    BerObjectContent, Tag, ber_read_element_header, parse_ber_container, parse_ber_content,
};
use der_parser::der::parse_der_content;
use der_parser::error::Err::Error;
use der_parser::error::Error::ConstructExpected;
use der_parser::error::ErrorKind::Eof;
use der_parser::error::{BerError, BerResult, ErrorKind, ParseError};
use test_support::octets::octets;
use std::test::Fail;

/// An error that keeps where it was met.
#[derive(Debug, PartialEq, Drop)]
enum Met<'a> {
    Refused(BerError),
    At(&'a [u8], ErrorKind),
}

impl<'a> From<BerError> for Met<'a> {
    fn from(e: BerError) -> Met<'a> {
        Met::Refused(e)
    }
}

impl<'a> ParseError<&'a [u8]> for Met<'a> {
    ghost from_error_kind_gives = { λ input kind e. e ≡ At input kind };

    ghost append_gives = { λ _ _ other e. e ≡ other };

    fn from_error_kind(input: &'a [u8], kind: ErrorKind) -> Met<'a> {
        Met::At(input, kind)
    }

    fn append(_input: &'a [u8], _kind: ErrorKind, other: Met<'a>) -> Met<'a> {
        other
    }
}

/// A content that is short is told at the octets behind the header.
#[test]
fn containers_tell_where(rt: HostRuntime) -> Result<(), Fail> {
    let input = octets(rt.alloc(), "30 05 02 01")?;
    let given: IResult<&[u8], u8, Met<'_>> = parse_ber_container(|_, _| Ok((b"", 0))).parse(&input);
    assert!(rt; matches!(given, Err(Error(Met::At([2, 1], Eof)))));
    let input = octets(rt.alloc(), "10 80")?;
    let given: IResult<&[u8], u8, Met<'_>> = parse_ber_container(|_, _| Ok((b"", 0))).parse(&input);
    assert!(rt; matches!(given, Err(Error(Met::Refused(ConstructExpected)))));
    Ok(())
}

/// A content is read behind a header of another class and number, as a type that the caller names.
#[test]
fn contents_behind_a_header(rt: HostRuntime) -> Result<(), Fail> {
    let input = octets(rt.alloc(), "80 04 00 4c 00 65")?;
    let (behind, header) = ber_read_element_header(&input)?;
    let by_ber = parse_ber_content(rt.alloc(), Tag::BmpString).parse(behind, &header, 50);
    assert!(rt; is_le(by_ber));
    let by_der = parse_der_content(rt.alloc(), Tag::BmpString).parse(behind, &header, 50);
    assert!(rt; is_le(by_der));
    Ok(())
}

/// Whether a content is read to its end, and is the BMPString `Le`.
fn is_le(given: BerResult<'_, BerObjectContent<'_>>) -> bool {
    match &given {
        Ok((rest, BerObjectContent::BmpString(octets))) => {
            rest.is_empty() && *octets == [0, 0x4c, 0, 0x65].as_slice()
        }
        _ => false,
    }
}
