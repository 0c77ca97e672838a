//! A certificate (RFC 5280 4.1), walked by parsers of contents, which keep nothing and take no memory.
use der_parser::IResult;
use der_parser::der::{
    Header, Tag, parse_der_bitstring, parse_der_bool, parse_der_integer, parse_der_octetstring,
    parse_der_oid, parse_der_sequence_defined_g, parse_der_set_defined_g,
    parse_der_tagged_explicit_g, parse_der_u32, parse_der_utctime, parse_der_utf8string,
};
use der_parser::error::{BerError, BerResult};

/// A certificate made by openssl: version 3, a name of one attribute twice, three extensions.
#[rattlefmt::skip]
const CERTIFICATE: &[u8] = &[
    0x30, 0x82, 0x01, 0x2c, 0x30, 0x81, 0xdf, 0xa0, 0x03, 0x02, 0x01, 0x02, 0x02, 0x14, 0x74, 0x77,
    0xa6, 0x10, 0x1b, 0x5c, 0xe1, 0x69, 0x36, 0x88, 0xb7, 0x67, 0x38, 0xc6, 0x5d, 0x89, 0xfd, 0xf6,
    0x30, 0x37, 0x30, 0x05, 0x06, 0x03, 0x2b, 0x65, 0x70, 0x30, 0x0c, 0x31, 0x0a, 0x30, 0x08, 0x06,
    0x03, 0x55, 0x04, 0x03, 0x0c, 0x01, 0x61, 0x30, 0x1e, 0x17, 0x0d, 0x32, 0x36, 0x31, 0x31, 0x32,
    0x33, 0x31, 0x32, 0x32, 0x38, 0x33, 0x33, 0x5a, 0x17, 0x0d, 0x33, 0x36, 0x31, 0x31, 0x32, 0x30,
    0x31, 0x32, 0x32, 0x38, 0x33, 0x33, 0x5a, 0x30, 0x0c, 0x31, 0x0a, 0x30, 0x08, 0x06, 0x03, 0x55,
    0x04, 0x03, 0x0c, 0x01, 0x61, 0x30, 0x2a, 0x30, 0x05, 0x06, 0x03, 0x2b, 0x65, 0x70, 0x03, 0x21,
    0x00, 0x0f, 0x2a, 0xba, 0x46, 0x3a, 0xb6, 0x7a, 0xab, 0xb4, 0xc6, 0xaa, 0xdb, 0x09, 0xc1, 0x4e,
    0xdd, 0xfc, 0x98, 0x7d, 0x42, 0xd3, 0xc0, 0x1a, 0x9b, 0xa6, 0x93, 0x61, 0x80, 0xb4, 0x2e, 0xca,
    0xb2, 0xa3, 0x53, 0x30, 0x51, 0x30, 0x1d, 0x06, 0x03, 0x55, 0x1d, 0x0e, 0x04, 0x16, 0x04, 0x14,
    0x88, 0x98, 0x75, 0x70, 0x56, 0xb8, 0x44, 0xd2, 0xe0, 0x41, 0xa4, 0x19, 0xf1, 0x45, 0x01, 0x4c,
    0x2d, 0x11, 0x7c, 0x4e, 0x30, 0x1f, 0x06, 0x03, 0x55, 0x1d, 0x23, 0x04, 0x18, 0x30, 0x16, 0x80,
    0x14, 0x88, 0x98, 0x75, 0x70, 0x56, 0xb8, 0x44, 0xd2, 0xe0, 0x41, 0xa4, 0x19, 0xf1, 0x45, 0x01,
    0x4c, 0x2d, 0x11, 0x7c, 0x4e, 0x30, 0x0f, 0x06, 0x03, 0x55, 0x1d, 0x13, 0x01, 0x01, 0xff, 0x04,
    0x05, 0x30, 0x03, 0x01, 0x01, 0xff, 0x30, 0x05, 0x06, 0x03, 0x2b, 0x65, 0x70, 0x03, 0x41, 0x00,
    0x8c, 0x6c, 0xad, 0x72, 0x39, 0x6c, 0x1c, 0xa4, 0x01, 0x2b, 0xef, 0xca, 0xde, 0xd1, 0x37, 0x88,
    0x06, 0xf9, 0x43, 0x60, 0xb9, 0x7b, 0x2a, 0x31, 0x6d, 0xc6, 0x8c, 0x19, 0xfa, 0xb2, 0x7f, 0x49,
    0x66, 0x12, 0x1c, 0x97, 0xdd, 0xb6, 0x0f, 0x98, 0xcf, 0x46, 0x2b, 0x82, 0x64, 0xe8, 0x03, 0x59,
    0xad, 0x68, 0xc4, 0xf8, 0xfa, 0xb7, 0xc3, 0x7c, 0xe4, 0x4e, 0x8c, 0x71, 0x28, 0x27, 0x72, 0x0c,
];

/// What follows a part that was walked.
type Walked<'a> = IResult<&'a [u8], (), BerError>;

/// What follows an object that was read.
fn walked(answer: BerResult<'_>) -> Walked<'_> {
    let (behind, _) = answer?;
    Ok((behind, ()))
}

/// Walks a certificate.
fn walk_certificate(i: &[u8]) -> Walked<'_> {
    parse_der_sequence_defined_g(walk_parts).parse(i)
}

/// Walks what is signed, the algorithm, and the signature.
fn walk_parts<'a>(i: &'a [u8], _: Header<'a>) -> Walked<'a> {
    let (behind, _) = parse_der_sequence_defined_g(walk_fields).parse(i)?;
    let (behind, _) = walk_algorithm(behind)?;
    walk_bits(behind)
}

/// Walks the fields of what is signed, up to the extensions.
fn walk_fields<'a>(i: &'a [u8], _: Header<'a>) -> Walked<'a> {
    let (behind, _) = walk_version_and_serial(i)?;
    let (behind, _) = walk_algorithm(behind)?;
    let (behind, _) = walk_names(behind)?;
    let (behind, _) = parse_der_sequence_defined_g(walk_key).parse(behind)?;
    walk_extensions(behind)
}

/// Walks a version, and a serial number.
fn walk_version_and_serial(i: &[u8]) -> Walked<'_> {
    let (behind, _) = walk_version(i)?;
    walked(parse_der_integer(behind))
}

/// Walks a version under the tag [0].
fn walk_version(i: &[u8]) -> Walked<'_> {
    let version = parse_der_tagged_explicit_g(Tag(0), |inner, _| parse_der_u32(inner)).parse(i);
    let (behind, _) = version?;
    Ok((behind, ()))
}

/// Walks the issuer's name, the validity and the subject's name.
fn walk_names(i: &[u8]) -> Walked<'_> {
    let (behind, _) = parse_der_sequence_defined_g(walk_relative_name).parse(i)?;
    let (behind, _) = parse_der_sequence_defined_g(walk_times).parse(behind)?;
    parse_der_sequence_defined_g(walk_relative_name).parse(behind)
}

/// Walks an algorithm without parameters.
fn walk_algorithm(i: &[u8]) -> Walked<'_> {
    parse_der_sequence_defined_g(walk_type).parse(i)
}

/// Walks the content of an algorithm.
fn walk_type<'a>(i: &'a [u8], _: Header<'a>) -> Walked<'a> {
    walk_identifier(i)
}

/// Walks an OBJECT IDENTIFIER.
fn walk_identifier(i: &[u8]) -> Walked<'_> {
    walked(parse_der_oid(i))
}

/// Walks a BIT STRING.
fn walk_bits(i: &[u8]) -> Walked<'_> {
    walked(parse_der_bitstring(i))
}

/// Walks a relative name of one attribute.
fn walk_relative_name<'a>(i: &'a [u8], _: Header<'a>) -> Walked<'a> {
    parse_der_set_defined_g(walk_attributes).parse(i)
}

/// Walks the content of a relative name.
fn walk_attributes<'a>(i: &'a [u8], _: Header<'a>) -> Walked<'a> {
    parse_der_sequence_defined_g(walk_attribute).parse(i)
}

/// Walks an attribute's type, and its value, a UTF8String.
fn walk_attribute<'a>(i: &'a [u8], _: Header<'a>) -> Walked<'a> {
    let (behind, _) = walk_identifier(i)?;
    walked(parse_der_utf8string(behind))
}

/// Walks two times.
fn walk_times<'a>(i: &'a [u8], _: Header<'a>) -> Walked<'a> {
    let (behind, _) = walk_time(i)?;
    walk_time(behind)
}

/// Walks a time.
fn walk_time(i: &[u8]) -> Walked<'_> {
    walked(parse_der_utctime(i))
}

/// Walks a key's algorithm, and its bits.
fn walk_key<'a>(i: &'a [u8], _: Header<'a>) -> Walked<'a> {
    let (behind, _) = walk_algorithm(i)?;
    walk_bits(behind)
}

/// Walks the extensions under the tag [3].
fn walk_extensions(i: &[u8]) -> Walked<'_> {
    parse_der_tagged_explicit_g(Tag(3), walk_list_of_extensions).parse(i)
}

/// Walks a list of extensions.
fn walk_list_of_extensions<'a>(i: &'a [u8], _: Header<'a>) -> Walked<'a> {
    parse_der_sequence_defined_g(walk_three_extensions).parse(i)
}

/// Walks three extensions.
fn walk_three_extensions<'a>(i: &'a [u8], _: Header<'a>) -> Walked<'a> {
    let (behind, _) = parse_der_sequence_defined_g(walk_extension).parse(i)?;
    let (behind, _) = parse_der_sequence_defined_g(walk_extension).parse(behind)?;
    parse_der_sequence_defined_g(walk_extension).parse(behind)
}

/// Walks an extension's identifier, whether it is critical, and its octets.
fn walk_extension<'a>(i: &'a [u8], _: Header<'a>) -> Walked<'a> {
    let (behind, _) = walk_identifier(i)?;
    walked(parse_der_octetstring(behind_critical(behind)))
}

/// What follows a BOOLEAN, or the whole where there is none.
fn behind_critical(i: &[u8]) -> &[u8] {
    match walked(parse_der_bool(i)) {
        Ok((behind, ())) => behind,
        Err(_) => i,
    }
}

#[test]
fn no_memory_for_a_walk_of_a_certificate(rt: HostRuntime) {
    let walked = walk_certificate(CERTIFICATE);
    assert!(rt; matches!(walked, Ok((b"", ()))), "{walked:?}");
}
