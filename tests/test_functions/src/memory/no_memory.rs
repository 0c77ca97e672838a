//! Calls that take no memory. These tests take none themselves, so they pass where each growth is
//! refused: `tools/refused-growths` runs them so.
use crate::memory::kept::integer_by_ber;
use der_parser::ber::Class::ContextSpecific;
use der_parser::ber::Length::Definite;
use der_parser::ber::{
    Any, BerObject, BerObjectContent, BitStringObject, Header, HeaderCount, Tag,
    ber_read_element_header, parse_ber_any, parse_ber_any_r, parse_ber_any_with_tag_r,
    parse_ber_container, parse_ber_content, parse_ber_counted, parse_ber_implicit,
    parse_ber_octetstring, parse_ber_optional, parse_ber_recursive, parse_ber_sequence_defined_g,
    parse_ber_set_defined_g, parse_ber_slice,
};
use der_parser::der::{
    der_read_element_content, der_read_element_header, parse_der_content, parse_der_counted,
    parse_der_recursive,
};
use der_parser::error::Err::Error;
use der_parser::error::Error::{BerMaxDepth, ConstructExpected};
use der_parser::error::{BerError, BerResult, IResult};
use der_parser::oid::Oid;
use der_parser::{parse_ber, parse_der};
use test_support::typed::{read_type_by_ber, read_type_by_der};
use std::alloc::Global;
use std::borrow::CowSlice;
use std::process::Abort;
use std::test::Fail;

/// A type's number, and an element of it by BER and by DER.
const LEAVES: &[(u32, &[u8])] = &[
    (0, b"\x00\x00"),
    (1, b"\x01\x01\xff"),
    (2, b"\x02\x01\x05"),
    (3, b"\x03\x02\x00\x31"),
    (4, b"\x04\x02\x61\x62"),
    (5, b"\x05\x00"),
    (6, b"\x06\x01\x2a"),
    (7, b"\x07\x01\x61"),
    (10, b"\x0a\x01\x05"),
    (12, b"\x0c\x02\xc3\xa9"),
    (13, b"\x0d\x01\x05"),
    (18, b"\x12\x01\x31"),
    (19, b"\x13\x01\x41"),
    (20, b"\x14\x01\x61"),
    (21, b"\x15\x01\x61"),
    (22, b"\x16\x01\x40"),
    (23, b"\x17\x0d200101000000Z"),
    (24, b"\x18\x1120200101000000.1Z"),
    (25, b"\x19\x01\x61"),
    (26, b"\x1a\x01\x61"),
    (27, b"\x1b\x01\x61"),
    (28, b"\x1c\x04\x00\x00\x00\x31"),
    (30, b"\x1e\x02\x00\x31"),
];

/// Elements of definite length that are no list with items.
const NO_LISTS: &[&[u8]] = &[
    b"\x30\x00",
    b"\x31\x00\xff",
    b"\x80\x01\x05",
    b"\xa0\x03\x02\x01\x05",
    b"\x1d\x01\x00",
    b"\x9f\xa2\x22\x01\x00",
];

/// The element is read.
fn expect_element(rt: &impl Abort, input: &[u8], given: BerResult<'_>) {
    assert!(rt; given.is_ok(), "{input:?}");
}

/// Both full readers read the element, to any depth.
fn expect_read(rt: &(impl Abort + AllocGlobal), input: &[u8]) {
    let mut count = HeaderCount::new();
    expect_element(rt, input, parse_ber(rt.alloc(), input));
    expect_element(rt, input, parse_ber_recursive(rt.alloc(), input, 1));
    expect_element(rt, input, parse_ber_any_r(rt.alloc(), input, 50));
    expect_element(
        rt,
        input,
        parse_ber_counted(rt.alloc(), input, 50, &mut count),
    );
    expect_element(rt, input, parse_der(rt.alloc(), input));
    expect_element(rt, input, parse_der_recursive(rt.alloc(), input, 1));
    expect_element(
        rt,
        input,
        parse_der_counted(rt.alloc(), input, 50, &mut count),
    );
}

#[test]
fn no_memory_for_leaves(rt: HostRuntime) {
    for (_, input) in LEAVES {
        expect_read(&rt, input);
    }
    for input in NO_LISTS {
        expect_read(&rt, input);
    }
}

#[test]
fn no_memory_for_typed_readers(rt: HostRuntime) {
    for (number, input) in LEAVES {
        expect_element(&rt, input, read_type_by_ber(rt.alloc(), *number, input));
        expect_element(&rt, input, read_type_by_der(rt.alloc(), *number, input));
    }
}

/// What is answered is a string of these octets, after which nothing follows.
fn expect_octets(rt: &impl Abort, given: &BerResult<'_>, octets: &[u8]) {
    assert!(rt; matches!(given, Ok((b"", object)) if is_octets(object, octets)));
}

#[test]
fn no_memory_for_a_typed_reader_of_an_indefinite_length(rt: HostRuntime) {
    let given = parse_ber_octetstring(b"\x24\x80\x04\x01\x61\x00\x00");
    expect_octets(&rt, &given, b"\x04\x01\x61");
}

/// Whether the object is a string of these octets.
fn is_octets(object: &BerObject<'_>, octets: &[u8]) -> bool {
    matches!(&object.content, BerObjectContent::OctetString(bytes) if *bytes == octets)
}

/// Whether an answer is this refusal, or any where none is named.
fn refuses(given: &BerResult<'_>, refusal: Option<BerError>) -> bool {
    match (given, refusal) {
        (Err(Error(e)), Some(refusal)) => *e == refusal,
        (Err(_), None) => true,
        _ => false,
    }
}

/// What is answered is this refusal, or any where none is named.
fn expect_refusal(rt: &impl Abort, given: BerResult<'_>, refusal: Option<BerError>) {
    assert!(rt; refuses(&given, refusal));
}

#[test]
fn no_memory_for_refusals_of_a_depth(rt: HostRuntime) {
    let list = b"\x30\x02\x05\x00";
    let indefinite = b"\x30\x80\x05\x00\x00\x00";
    let too_deep = Some(BerMaxDepth);
    expect_refusal(&rt, parse_ber_recursive(rt.alloc(), list, 1), too_deep);
    expect_refusal(&rt, parse_der_recursive(rt.alloc(), list, 1), too_deep);
    expect_refusal(
        &rt,
        parse_ber_recursive(rt.alloc(), indefinite, 0),
        too_deep,
    );
    expect_refusal(&rt, parse_der_recursive(rt.alloc(), list, 0), too_deep);
}

#[test]
fn no_memory_for_refusals(rt: HostRuntime) {
    let primitive = b"\x10\x02\x05\x00";
    let no_list = Some(ConstructExpected);
    expect_refusal(&rt, parse_ber(rt.alloc(), primitive), no_list);
    expect_refusal(&rt, parse_der(rt.alloc(), primitive), no_list);
    let with_tag = parse_ber_any_with_tag_r(rt.alloc(), b"\x10\x00", Tag::Sequence, 1);
    expect_refusal(&rt, with_tag, no_list);
    expect_refusal(&rt, parse_ber(rt.alloc(), b"\x30\x03\x05\x00"), None);
    expect_refusal(
        &rt,
        parse_der(rt.alloc(), b"\x30\x80\x05\x00\x00\x00"),
        None,
    );
}

/// The header of a content of one octet.
fn content_header() -> Header<'static> {
    Header::new(ContextSpecific, false, Tag(0), Definite(1))
}

/// A content is read.
fn expect_content(rt: &impl Abort, given: BerResult<'_, BerObjectContent<'_>>) {
    assert!(rt; given.is_ok());
}

#[test]
fn no_memory_for_a_content_by_ber(rt: HostRuntime) {
    let given = parse_ber_content(rt.alloc(), Tag::Integer).parse(b"\x05", &content_header(), 1);
    expect_content(&rt, given);
}

#[test]
fn no_memory_for_a_content_by_der(rt: HostRuntime) {
    let given = parse_der_content(rt.alloc(), Tag::Integer).parse(b"\x05", &content_header(), 1);
    expect_content(&rt, given);
}

#[test]
fn no_memory_for_a_content_behind_a_header(rt: HostRuntime) {
    let given = der_read_element_content(rt.alloc(), b"\x05", content_header());
    expect_element(&rt, b"\x05", given);
}

#[test]
fn no_memory_for_headers_and_elements(rt: HostRuntime) {
    assert!(rt; ber_read_element_header(b"\x30\x80").is_ok());
    assert!(rt; der_read_element_header(b"\x9f\xa2\x22\x01\x00").is_ok());
    let nested = b"\x30\x80\x31\x80\x05\x00\x00\x00\x00\x00";
    for given in [Any::from_ber(nested), parse_ber_any(nested)] {
        assert!(rt;
            matches!(&given, Ok((b"", any)) if any.bytes == b"\x31\x80\x05\x00\x00\x00".as_slice()),
            "{given:?}"
        );
    }
    assert!(rt; Any::from_der(b"\x30\x02\x05\x00").is_ok());
    assert!(rt;
        Any::from_tag_and_data(Tag::Sequence, b"\x05\x00")
            .bytes
            .len()
            == 2
    );
}

/// What a container's parser is given, as it is.
fn whole<'a>(content: &'a [u8], header: Header<'a>) -> IResult<&'a [u8], Tag, BerError> {
    Ok((content, header.tag()))
}

/// What a container's parser answers, which answers the tag.
type Container<'a> = IResult<&'a [u8], Tag, BerError>;

/// What is answered where an element of any tag is wanted, a SEQUENCE, or a SET.
fn contained(wanted: Option<Tag>, i: &[u8]) -> Container<'_> {
    match wanted {
        None => parse_ber_container(whole).parse(i),
        Some(Tag::Sequence) => parse_ber_sequence_defined_g(whole).parse(i),
        Some(_) => parse_ber_set_defined_g(whole).parse(i),
    }
}

/// The container has this tag, and nothing follows it.
fn expect_container(rt: &impl Abort, tag: Tag, given: &Container<'_>) {
    assert!(rt; matches!(given, Ok((b"", it)) if *it == tag));
}

#[test]
fn no_memory_for_a_container(rt: HostRuntime) {
    let list = b"\x30\x80\x31\x80\x00\x00\x00\x00";
    expect_container(&rt, Tag::Sequence, &contained(None, list));
}

#[test]
fn no_memory_for_a_sequence(rt: HostRuntime) {
    let list = b"\x30\x80\x31\x80\x00\x00\x00\x00";
    expect_container(&rt, Tag::Sequence, &contained(Some(Tag::Sequence), list));
}

#[test]
fn no_memory_for_a_set(rt: HostRuntime) {
    let list = b"\x31\x80\x30\x80\x00\x00\x00\x00";
    expect_container(&rt, Tag::Set, &contained(Some(Tag::Set), list));
}

#[test]
fn no_memory_for_a_slice(rt: HostRuntime) {
    let slice = parse_ber_slice(b"\x22\x80\x02\x01\x01\x00\x00", Tag(2));
    assert!(rt; matches!(&slice, Ok((b"", b"\x02\x01\x01"))), "{slice:?}");
}

#[test]
fn no_memory_for_implicit_tags(rt: HostRuntime) {
    let element = b"\x82\x01\x05";
    let integer = parse_ber_content(rt.alloc(), Tag::Integer);
    let given = parse_ber_implicit(element, Tag(2), |i, header, depth| {
        integer.parse(i, header, depth)
    });
    expect_element(&rt, element, given);
}

/// Nothing of the element is read.
fn expect_unread(rt: &impl Abort, given: &BerResult<'_>, input: &[u8]) {
    assert!(rt; matches!(given, Ok((rest, _)) if *rest == input));
}

#[test]
fn no_memory_for_an_object_that_is_absent(rt: HostRuntime) {
    let given = parse_ber_optional(rt.alloc(), integer_by_ber).parse(b"\x05\x00");
    expect_unread(&rt, &given, b"\x05\x00");
}

#[test]
fn no_memory_for_a_copy_of_a_borrowed_identifier(rt: HostRuntime) {
    let oid = Oid::new(CowSlice::Borrowed(b"\x88\x37"));
    let relative = Oid::new_relative(CowSlice::Borrowed(b"\x88\x37"));
    let copy = oid.try_clone(rt.alloc());
    assert!(rt; matches!(&copy, Ok(same) if *same == oid), "{copy:?}");
    let copy = relative.try_clone(rt.alloc());
    assert!(rt; matches!(&copy, Ok(same) if *same == relative), "{copy:?}");
    assert!(rt; oid.iter().is_some());
}

/// The object has this tag.
fn expect_tag(rt: &impl Abort, tag: Tag, object: BerObject<'_>) {
    assert!(rt; object.header.tag() == tag);
}

/// The object keeps these octets as its identifier.
fn expect_raw_tag(rt: &impl Abort, raw_tag: &[u8], object: BerObject<'_>) {
    assert!(rt; object.header.raw_tag() == Some(raw_tag));
}

#[test]
fn no_memory_for_made_objects(rt: HostRuntime) {
    let integer = BerObject::from_int_slice(b"\x05").set_raw_tag(Some(b"\x02"));
    expect_raw_tag(&rt, b"\x02", integer);
    expect_tag(
        &rt,
        Tag::Sequence,
        BerObject::from_seq(Vec::new(rt.alloc())),
    );
    expect_tag(&rt, Tag::Set, BerObject::from_set(Vec::new(rt.alloc())));
    assert!(rt; BitStringObject { bytes: b"\x0f" }.is_set(7));
}

/// Both objects are the same.
fn expect_same<'a>(rt: &impl Abort, object: &BerObject<'a>, other: &BerObject<'a>) {
    assert!(rt; object == other);
}

/// The identifier 1.2.
fn identifier() -> Oid<'static> {
    Oid::new(CowSlice::Borrowed(b"\x2a"))
}

#[test]
fn no_memory_for_an_object_of_an_identifier(rt: HostRuntime) {
    let oid = BerObject::from(identifier());
    let object = BerObject::from_obj(BerObjectContent::OID(identifier()));
    expect_same(&rt, &oid, &object);
}

/// How many copies are made before memory is taken: more than the growths that `tools/refused-growths` refuses in turn.
const COPIES: usize = 100;

/// Whether the copies of the object's identifier, by the object and by its content, are 1.2.
fn gives_identifier(alloc: Global, object: &BerObject<'_>) -> bool {
    match (object.as_oid_val(alloc), object.content.as_oid_val(alloc)) {
        (Ok(oid), Ok(same)) => (oid.as_bytes(), same.as_bytes()) == (b"\x2a", b"\x2a"),
        _ => false,
    }
}

/// Makes the copies, and then takes memory.
fn grow_after_copies(rt: &(impl Abort + AllocGlobal), object: &BerObject<'_>) -> Result<(), Fail> {
    for _ in 0..COPIES {
        assert!(rt; gives_identifier(rt.alloc(), object));
    }
    let grown: Vec<u8> = Vec::with_capacity(rt.alloc(), 1)?;
    assert!(rt; grown.is_empty());
    Ok(())
}

/// The first growth is that of the test itself, since a copy of a borrowed identifier takes no memory. Copies that take
/// memory and drop it, whether there is any or not, leave no refused growth for the test.
#[test]
fn wants_memory_after_as_oid_val(rt: HostRuntime) -> Result<(), Fail> {
    let object = BerObject::from(identifier());
    grow_after_copies(&rt, &object)
}
