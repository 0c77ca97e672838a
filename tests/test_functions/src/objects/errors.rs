//! Errors: how they are made and changed.
use der_parser::ber::{Class, Tag};
use der_parser::error::{BerError, Err as Refused, ErrorKind, Needed, ParseError};

#[test]
fn errors_are_made(rt: HostRuntime) {
    let tag = BerError::unexpected_tag(Some(Tag(2)), Tag(3));
    let expected = BerError::UnexpectedTag {
        expected: Some(Tag(2)),
        actual: Tag(3),
    };
    assert_eq!(rt; tag, expected);
    let class = BerError::unexpected_class(None, Class::Universal);
    let expected = BerError::UnexpectedClass {
        expected: None,
        actual: Class::Universal,
    };
    assert_eq!(rt; class, expected);
}

#[test]
fn errors_of_values_are_made(rt: HostRuntime) {
    let value = BerError::invalid_value(Tag(3), "more");
    let expected = BerError::InvalidValue {
        tag: Tag(3),
        msg: "more",
    };
    assert_eq!(rt; value, expected);
    assert_eq!(rt; Needed::new(0), Needed::Unknown);
    assert_eq!(rt; Needed::new(3), Needed::Size(3));
}

/// The error of a parser is the first one that it reports.
#[test]
fn parsers_make_errors(rt: HostRuntime) {
    let input: &[u8] = b"\x05";
    let kind = <BerError as ParseError<&[u8]>>::from_error_kind(input, ErrorKind::Eof);
    assert_eq!(rt; kind, BerError::NomError(ErrorKind::Eof));
    let many = <BerError as ParseError<&[u8]>>::from_error_kind(input, ErrorKind::Many0);
    assert_eq!(rt; many, BerError::NomError(ErrorKind::Many0));
    let other = <BerError as ParseError<&[u8]>>::append(
        input,
        ErrorKind::Eof,
        BerError::InvalidTag,
    );
    assert_eq!(rt; other, BerError::InvalidTag);
}

/// Whether the error is changed.
fn are_errors_mapped() -> bool {
    let facts = [
        Refused::Error(5u8).map(|e| e == 5) == Refused::Error(true),
        Refused::Failure(5u8).map(|e| e == 5) == Refused::Failure(true),
    ];
    facts.iter().all(|is_so| *is_so)
}

/// Whether what has no error is unchanged.
fn are_others_kept() -> bool {
    let cut: Refused<u8> = Refused::Incomplete(Needed::Size(3));
    let wanting: Refused<u8> = Refused::OutOfMemory;
    let facts = [
        cut.map(|e| e == 5) == Refused::Incomplete(Needed::Size(3)),
        wanting.map(|e| e == 5) == Refused::OutOfMemory,
    ];
    facts.iter().all(|is_so| *is_so)
}

/// Nothing but the error is changed.
#[test]
fn answers_are_mapped(rt: HostRuntime) {
    assert!(rt; are_errors_mapped());
    assert!(rt; are_others_kept());
}

#[test]
fn answers_are_converted(rt: HostRuntime) {
    let refused: Refused<BerError> = Refused::from(BerError::InvalidTag);
    assert_eq!(rt; refused, Refused::Error(BerError::InvalidTag));
    let wide: Refused<u32> = Refused::convert(Refused::Failure(5u8));
    assert_eq!(rt; wide, Refused::Failure(5u32));
}
