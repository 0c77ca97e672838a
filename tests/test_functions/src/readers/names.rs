//! Names: what each public name of `der_parser` is, where another could be in its place.
use der_parser::{IResult, Rules};
use der_parser::ber::compat::{BerClass, BerObjectHeader, BerSize, BerTag, Tag as CompatTag};
use der_parser::ber::{
    BerContent, BerContent2, BerObject, BerObjectContent, BitStringObject, Class, Header, Length,
    MAX_OBJECT_SIZE, MAX_RECURSION, Tag, parse_ber_container, parse_ber_content,
    parse_ber_content2,
};
use der_parser::der::{
    self, DerClass, DerContent, DerContent2, DerObject, DerObjectContent, DerObjectHeader, DerTag,
    parse_der_container, parse_der_content, parse_der_content2,
};
use der_parser::error::DerConstraint::LengthNotMinimal;
use der_parser::error::Error::DerConstraintFailed;
use der_parser::error::{BerError, BerResult, DerResult, Err, Error};
use der_parser::nodes::{
    Element, are_elements, check_element, is_element, list_element, list_elements, read_element,
};
use der_parser::oid::{Oid, OidIter};
use std::borrow::CowSlice;
use std::test::Fail;

/// A name, the constant of this name, and its number.
#[rattlefmt::skip]
const TAGS: &[(&str, Tag, u32)] = &[
    ("EndOfContent", Tag::EndOfContent, 0),
    ("Boolean", Tag::Boolean, 1),
    ("Integer", Tag::Integer, 2),
    ("BitString", Tag::BitString, 3),
    ("OctetString", Tag::OctetString, 4),
    ("Null", Tag::Null, 5),
    ("Oid", Tag::Oid, 6),
    ("ObjectDescriptor", Tag::ObjectDescriptor, 7),
    ("External", Tag::External, 8),
    ("RealType", Tag::RealType, 9),
    ("Enumerated", Tag::Enumerated, 10),
    ("EmbeddedPdv", Tag::EmbeddedPdv, 11),
    ("Utf8String", Tag::Utf8String, 12),
    ("RelativeOid", Tag::RelativeOid, 13),
    ("Sequence", Tag::Sequence, 16),
    ("Set", Tag::Set, 17),
    ("NumericString", Tag::NumericString, 18),
    ("PrintableString", Tag::PrintableString, 19),
    ("T61String", Tag::T61String, 20),
    ("TeletexString", Tag::TeletexString, 20),
    ("VideotexString", Tag::VideotexString, 21),
    ("Ia5String", Tag::Ia5String, 22),
    ("UtcTime", Tag::UtcTime, 23),
    ("GeneralizedTime", Tag::GeneralizedTime, 24),
    ("GraphicString", Tag::GraphicString, 25),
    ("VisibleString", Tag::VisibleString, 26),
    ("GeneralString", Tag::GeneralString, 27),
    ("UniversalString", Tag::UniversalString, 28),
    ("BmpString", Tag::BmpString, 30),
];

#[test]
fn constants_have_numbers(rt: HostRuntime) {
    for (name, tag, number) in TAGS {
        assert_eq!(rt; tag.0, *number, "{name}");
    }
    assert_eq!(rt; MAX_OBJECT_SIZE, 4294967295);
    assert_eq!(rt; MAX_RECURSION, 50);
}

/// By BER an indefinite length is read: a SEQUENCE, a NULL and an end marker. By DER there is no element.
#[test]
fn elements_are_read_by_their_rules(rt: HostRuntime) {
    let input = b"\x30\x80\x05\x00\x00\x00".as_slice();
    for rules in [Rules::Ber, Rules::Der] {
        let by_ber = rules == Rules::Ber;
        let count = if by_ber { Some(2) } else { None };
        assert!(rt; is_element(input, rules, 2) == by_ber);
        assert!(rt; are_elements(input, rules, 2) == by_ber);
        assert!(rt; check_element(input, rules, 2).is_some() == by_ber);
        let one = list_element::<Element>(input, rules, 2, &mut []);
        assert!(rt; one.map(|listed| listed.elements) == count);
        assert!(rt; list_elements::<Element>(input, rules, 2, &mut []) == count);
        let read = read_element(rt.alloc(), input, rules, 2);
        assert!(rt; matches!(read, Ok(Some((&[], _)))) == by_ber);
    }
}

#[test]
fn other_names_of_headers_are_the_same_types(rt: HostRuntime) {
    let class: Class = Class::Private;
    let by_ber: BerClass = class;
    let by_der: DerClass = by_ber;
    let in_der: der::Class = by_der;
    let size: BerSize = Length::Definite(1);
    let header: Header<'static> = Header::new(in_der, true, Tag(2), size);
    let by_ber: BerObjectHeader<'static> = header;
    let by_der: DerObjectHeader<'static> = by_ber;
    let in_der: der::Header<'static> = by_der;
    let tag: Tag = in_der.tag();
    let by_ber: BerTag = tag;
    let by_der: DerTag = by_ber;
    let in_der: der::Tag = by_der;
    let in_compat: CompatTag = in_der;
    assert_eq!(rt; in_compat, Tag(2));
}

/// An object of BER under the names of DER.
fn under_der_names(object: BerObject<'_>) -> DerObject<'_> {
    let content: DerObjectContent<'_> = object.content;
    let content: BerObjectContent<'_> = content;
    BerObject::from_header_and_content(object.header, content)
}

/// A result of BER under the name of DER.
fn under_der_result<'a>(answer: BerResult<'a>) -> DerResult<'a> {
    answer
}

/// A result under the names of its parts, at the root and in `error`.
fn under_longer_names<'a>(
    answer: BerResult<'a>,
) -> der_parser::IResult<&'a [u8], BerObject<'a>, BerError> {
    let same: der_parser::error::IResult<&'a [u8], BerObject<'a>, Error> = answer;
    same
}

#[test]
fn other_names_of_objects_are_the_same_types(rt: HostRuntime) -> Result<(), Fail> {
    let answer = der_parser::parse_ber(rt.alloc(), b"\x03\x02\x00\x31");
    let (rest, object) = under_longer_names(under_der_result(answer))?;
    let object = under_der_names(object);
    assert!(rt; rest.is_empty());
    let BerObjectContent::BitString(0, bits) = object.content else {
        assert!(rt; false);
        return Ok(());
    };
    let bits: BitStringObject<'_> = bits;
    assert!(rt; bits.bytes == b"\x31".as_slice());
    Ok(())
}

#[test]
fn other_names_of_identifiers_are_the_same_types(rt: HostRuntime) {
    let oid: der_parser::Oid<'static> = der_parser::oid::Oid::new(CowSlice::Borrowed(b"\x2a"));
    let arcs: Option<OidIter<'_>> = oid.iter();
    assert!(rt; arcs.is_some());
}

#[test]
fn combinators_are_named_structs(rt: HostRuntime) {
    let content: BerContent = parse_ber_content(rt.alloc(), Tag(5));
    let content2: BerContent2 = parse_ber_content2(rt.alloc(), Tag(5));
    let by_der: DerContent = parse_der_content(rt.alloc(), Tag(5));
    let by_der2: DerContent2 = parse_der_content2(rt.alloc(), Tag(5));
    let header = Header::new(Class::Universal, false, Tag(5), Length::Definite(0));
    assert!(rt; is_null(content.parse(b"", &header, 1)));
    assert!(rt; is_null(content2.parse(b"", header, 1)));
    assert!(rt; is_null(by_der.parse(b"", &header, 1)));
    assert!(rt; is_null(by_der2.parse(b"", header, 1)));
}

/// Whether a content is read, and is that of a NULL.
fn is_null(given: BerResult<'_, BerObjectContent<'_>>) -> bool {
    matches!(&given, Ok((_, BerObjectContent::Null)))
}

/// How many octets a content has.
fn size_of_content<'a>(content: &'a [u8], _: Header<'a>) -> IResult<&'a [u8], usize, BerError> {
    Ok((content, content.len()))
}

/// A length in the long form is read by BER alone.
#[test]
fn containers_have_their_rules(rt: HostRuntime) {
    let by_ber = parse_ber_container(size_of_content).parse(b"\x02\x81\x01\x05");
    assert!(rt; matches!(by_ber, Ok((&[], 1))));
    let by_der = parse_der_container(size_of_content).parse(b"\x02\x81\x01\x05");
    assert!(rt; by_der == Err(Err::Error(DerConstraintFailed(LengthNotMinimal))));
}
