//! Identifier octets of objects that are made, and elements that are made.
use der_parser::ber::Class::{ContextSpecific, Universal};
use der_parser::ber::Length::Definite;
use der_parser::ber::{Any, BerObject, BerObjectContent, BitStringObject, Header, Tag};

/// The header that is given.
fn given_header() -> Header<'static> {
    Header::new(ContextSpecific, false, Tag(2), Definite(7))
}

/// An INTEGER of that header.
fn given_integer() -> BerObject<'static> {
    BerObject::from_header_and_content(given_header(), BerObjectContent::Integer(b"\x05"))
}

/// Whether the header is the given one, with these identifier octets.
fn is_given(header: &Header<'_>, raw_tag: Option<&[u8]>) -> bool {
    let facts = [
        *header == given_header(),
        header.length() == Definite(7),
        header.raw_tag() == raw_tag,
    ];
    facts.iter().all(|is_so| *is_so)
}

/// `set_raw_tag` changes the identifier octets that a header tells alone.
#[test]
fn identifier_octets_are_given(rt: HostRuntime) {
    let named = given_integer().set_raw_tag(Some(b"\x9f\x02"));
    assert!(rt; is_given(&named.header, Some(b"\x9f\x02")));
    assert!(rt; named.content == BerObjectContent::Integer(b"\x05"));
}

#[test]
fn identifier_octets_are_taken_away(rt: HostRuntime) {
    let named = given_integer().set_raw_tag(Some(b"\x9f\x02"));
    assert!(rt; is_given(&named.set_raw_tag(None).header, None));
}

/// A tag, and whether an element that is made of it is constructed.
const OF_TAGS: &[(Tag, bool)] = &[
    (Tag::Sequence, true),
    (Tag::Set, true),
    (Tag::Integer, false),
    (Tag::OctetString, false),
    (Tag(4386), false),
];

/// Whether the element is of class Universal, of this tag, constructed or not, and of the octets 05
/// and 00, without identifier octets.
fn is_made_of(any: &Any<'_>, tag: Tag, constructed: bool) -> bool {
    let facts = [
        any.bytes == b"\x05\x00".as_slice(),
        any.tag() == tag,
        any.class() == Universal,
        any.header.constructed() == constructed,
        any.header.length() == Definite(2),
        any.header.raw_tag().is_none(),
    ];
    facts.iter().all(|is_so| *is_so)
}

/// Whether another class leaves the tag and the octets as they are.
fn takes_a_class(any: Any<'_>) -> bool {
    let other = any.with_class(ContextSpecific);
    let facts = [
        other.class() == ContextSpecific,
        other.tag() == any.tag(),
        other.bytes == any.bytes,
    ];
    facts.iter().all(|is_so| *is_so)
}

#[test]
fn elements_are_made(rt: HostRuntime) {
    for (tag, constructed) in OF_TAGS {
        let any = Any::from_tag_and_data(*tag, b"\x05\x00");
        assert!(rt; is_made_of(&any, *tag, *constructed), "{any:?}");
        assert!(rt; takes_a_class(any), "{any:?}");
        assert!(rt; Any::new(any.header, b"\x05\x00") == any, "{any:?}");
    }
}

#[test]
fn bits_are_told(rt: HostRuntime) {
    let bits = BitStringObject {
        bytes: b"\x0f\x00\x40",
    };
    for (place, is_set) in [(0, false), (7, true), (9, false), (17, true), (24, false)] {
        assert_eq!(rt; bits.is_set(place), is_set, "{place}");
    }
}
