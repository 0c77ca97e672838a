//! Want of memory, a test a call: the call that the test's name ends in takes all the memory that is taken
//! after a test's first lines, which end the test where there is none. With ample memory it returns
//! Ok. `tools/refused-growths` runs the tests with the first growth refused, then with the second, and
//! so on: then the call returns OutOfMemory, and nothing else.
use crate::memory::kept::{integer_by_ber, integer_by_der, number_by_ber, number_by_der};
use der_parser::ber::{
    Any, BerObject, BerObjectContent, Class, Header, Length, PrettyBer, PrettyPrinterFlag, Tag,
    ber_object_from_any, ber_read_element_content_as, parse_ber_content, parse_ber_content2,
    parse_ber_explicit_optional, parse_ber_optional, parse_ber_sequence_of,
    parse_ber_sequence_of_v, parse_ber_set_of, parse_ber_set_of_v, parse_ber_tagged_explicit,
};
use der_parser::der::{
    der_read_element_content, der_read_element_content_as, parse_der_content, parse_der_content2,
    parse_der_explicit_optional, parse_der_optional, parse_der_sequence_of,
    parse_der_sequence_of_v, parse_der_set_of, parse_der_set_of_v, parse_der_tagged_explicit,
};
use der_parser::error::BerResult;
use der_parser::oid::Oid;
use der_parser::parse_der;
use test_support::reader::Reader;
use test_support::reader::Reader::{
    ParseBer, ParseBerAnyR, ParseBerAnyWithTagR, ParseBerCounted, ParseBerRecursive,
    ParseBerSequence, ParseBerSet, ParseBerWithTag, ParseDer, ParseDerCounted, ParseDerRecursive,
    ParseDerSequence, ParseDerSet, ParseDerWithTag,
};
use std::alloc::Global;
use std::process::Abort;
use std::test::Fail;

const SEQUENCE: &[u8] = b"\x30\x02\x05\x00";

const SET: &[u8] = b"\x31\x02\x05\x00";

const INTEGERS: &[u8] = b"\x30\x03\x02\x01\x05";

const INTEGER_SET: &[u8] = b"\x31\x03\x02\x01\x05";

const EXPLICIT: &[u8] = b"\xa0\x03\x02\x01\x05";

/// The reader reads the whole input.
fn read_all(rt: &(impl Abort + AllocGlobal), reader: Reader, input: &[u8]) -> Result<(), Fail> {
    expect_whole(rt, reader.read(rt.alloc(), input))
}

/// What was read is the whole input.
fn expect_whole(rt: &impl Abort, answer: BerResult<'_>) -> Result<(), Fail> {
    let (rest, _) = answer?;
    assert!(rt; rest.is_empty());
    Ok(())
}

/// What was read is a list of numbers, and the whole input.
fn expect_numbers(rt: &impl Abort, answer: BerResult<'_, Vec<u32>>) -> Result<(), Fail> {
    let (rest, _) = answer?;
    assert!(rt; rest.is_empty());
    Ok(())
}

/// A SEQUENCE's header, before two octets of content.
fn sequence_header() -> Header<'static> {
    Header::new(Class::Universal, true, Tag::Sequence, Length::Definite(2))
}

/// What was read is one SEQUENCE, and the whole input.
fn expect_list(rt: &impl Abort, answer: BerResult<'_, BerObjectContent<'_>>) -> Result<(), Fail> {
    let (rest, content) = answer?;
    expect_sequence(rt, rest, &content);
    Ok(())
}

/// The content is a SEQUENCE, with nothing behind it.
fn expect_sequence(rt: &impl Abort, rest: &[u8], content: &BerObjectContent<'_>) {
    assert!(rt; rest.is_empty());
    assert!(rt; matches!(content, BerObjectContent::Sequence(_)));
}

#[test]
fn wants_memory_parse_ber(rt: HostRuntime) -> Result<(), Fail> {
    read_all(&rt, ParseBer, b"\x30\x03\x01\x01\x7f")
}

#[test]
fn wants_memory_parse_ber_of_indefinite_length(rt: HostRuntime) -> Result<(), Fail> {
    read_all(&rt, ParseBer, b"\x30\x80\x04\x03\x56\x78\x90\x00\x00")
}

#[test]
fn wants_memory_parse_ber_of_lists_inside(rt: HostRuntime) -> Result<(), Fail> {
    read_all(
        &rt,
        ParseBer,
        b"\x30\x80\x31\x80\x30\x80\x00\x00\x00\x00\x00\x00",
    )
}

/// A framed element is recorded, whatever its type.
#[test]
fn wants_memory_parse_ber_of_an_octet_string(rt: HostRuntime) -> Result<(), Fail> {
    read_all(&rt, ParseBer, b"\x24\x80\x04\x01\x61\x00\x00")
}

#[test]
fn wants_memory_parse_ber_recursive(rt: HostRuntime) -> Result<(), Fail> {
    read_all(&rt, ParseBerRecursive(2), SEQUENCE)
}

#[test]
fn wants_memory_parse_ber_any_r(rt: HostRuntime) -> Result<(), Fail> {
    read_all(&rt, ParseBerAnyR(2), SEQUENCE)
}

#[test]
fn wants_memory_parse_ber_any_with_tag_r(rt: HostRuntime) -> Result<(), Fail> {
    read_all(&rt, ParseBerAnyWithTagR(Tag::Sequence, 2), SEQUENCE)
}

#[test]
fn wants_memory_parse_ber_any_with_tag_r_of_an_octet_string(rt: HostRuntime) -> Result<(), Fail> {
    read_all(
        &rt,
        ParseBerAnyWithTagR(Tag::OctetString, 1),
        b"\x24\x80\x04\x01\x61\x00\x00",
    )
}

#[test]
fn wants_memory_parse_ber_counted(rt: HostRuntime) -> Result<(), Fail> {
    read_all(&rt, ParseBerCounted(2), SEQUENCE)
}

#[test]
fn wants_memory_parse_ber_with_tag(rt: HostRuntime) -> Result<(), Fail> {
    read_all(&rt, ParseBerWithTag(Tag::Set), SET)
}

#[test]
fn wants_memory_parse_ber_sequence(rt: HostRuntime) -> Result<(), Fail> {
    read_all(&rt, ParseBerSequence, SEQUENCE)
}

#[test]
fn wants_memory_parse_ber_set(rt: HostRuntime) -> Result<(), Fail> {
    read_all(&rt, ParseBerSet, b"\x31\x80\x05\x00\x00\x00")
}

#[test]
fn wants_memory_parse_der(rt: HostRuntime) -> Result<(), Fail> {
    read_all(&rt, ParseDer, b"\x30\x03\x01\x01\xff")
}

#[test]
fn wants_memory_parse_der_of_lists_inside(rt: HostRuntime) -> Result<(), Fail> {
    read_all(&rt, ParseDer, b"\x31\x05\x30\x03\x01\x01\x00")
}

#[test]
fn wants_memory_parse_der_recursive(rt: HostRuntime) -> Result<(), Fail> {
    read_all(&rt, ParseDerRecursive(2), SEQUENCE)
}

#[test]
fn wants_memory_parse_der_counted(rt: HostRuntime) -> Result<(), Fail> {
    read_all(&rt, ParseDerCounted(2), SEQUENCE)
}

#[test]
fn wants_memory_parse_der_with_tag(rt: HostRuntime) -> Result<(), Fail> {
    read_all(&rt, ParseDerWithTag(Tag::Set), SET)
}

#[test]
fn wants_memory_parse_der_sequence(rt: HostRuntime) -> Result<(), Fail> {
    read_all(&rt, ParseDerSequence, SEQUENCE)
}

#[test]
fn wants_memory_parse_der_set(rt: HostRuntime) -> Result<(), Fail> {
    read_all(&rt, ParseDerSet, SET)
}

#[test]
fn wants_memory_ber_read_element_content_as(rt: HostRuntime) -> Result<(), Fail> {
    let answer = ber_read_element_content_as(
        rt.alloc(),
        b"\x05\x00",
        Tag::Sequence,
        Length::Definite(2),
        true,
        2,
    );
    expect_list(&rt, answer)
}

#[test]
fn wants_memory_ber_content(rt: HostRuntime) -> Result<(), Fail> {
    let answer = parse_ber_content(rt.alloc(), Tag::Sequence).parse(
        b"\x05\x00",
        &sequence_header(),
        2,
    );
    expect_list(&rt, answer)
}

#[test]
fn wants_memory_ber_content2(rt: HostRuntime) -> Result<(), Fail> {
    let answer = parse_ber_content2(rt.alloc(), Tag::Sequence).parse(
        b"\x05\x00",
        sequence_header(),
        2,
    );
    expect_list(&rt, answer)
}

#[test]
fn wants_memory_der_read_element_content_as(rt: HostRuntime) -> Result<(), Fail> {
    let answer = der_read_element_content_as(
        rt.alloc(),
        b"\x05\x00",
        Tag::Sequence,
        Length::Definite(2),
        true,
        2,
    );
    expect_list(&rt, answer)
}

#[test]
fn wants_memory_der_content(rt: HostRuntime) -> Result<(), Fail> {
    let answer = parse_der_content(rt.alloc(), Tag::Sequence).parse(
        b"\x05\x00",
        &sequence_header(),
        2,
    );
    expect_list(&rt, answer)
}

#[test]
fn wants_memory_der_content2(rt: HostRuntime) -> Result<(), Fail> {
    let answer = parse_der_content2(rt.alloc(), Tag::Sequence).parse(
        b"\x05\x00",
        sequence_header(),
        2,
    );
    expect_list(&rt, answer)
}

#[test]
fn wants_memory_der_read_element_content(rt: HostRuntime) -> Result<(), Fail> {
    let answer = der_read_element_content(rt.alloc(), b"\x05\x00", sequence_header());
    expect_whole(&rt, answer)
}

#[test]
fn wants_memory_parse_ber_sequence_of(rt: HostRuntime) -> Result<(), Fail> {
    expect_whole(
        &rt,
        parse_ber_sequence_of(rt.alloc(), integer_by_ber).parse(INTEGERS),
    )
}

#[test]
fn wants_memory_parse_ber_sequence_of_v(rt: HostRuntime) -> Result<(), Fail> {
    expect_numbers(
        &rt,
        parse_ber_sequence_of_v(rt.alloc(), number_by_ber).parse(INTEGERS),
    )
}

#[test]
fn wants_memory_parse_ber_set_of(rt: HostRuntime) -> Result<(), Fail> {
    expect_whole(
        &rt,
        parse_ber_set_of(rt.alloc(), integer_by_ber).parse(INTEGER_SET),
    )
}

#[test]
fn wants_memory_parse_ber_set_of_v(rt: HostRuntime) -> Result<(), Fail> {
    expect_numbers(
        &rt,
        parse_ber_set_of_v(rt.alloc(), number_by_ber).parse(INTEGER_SET),
    )
}

#[test]
fn wants_memory_parse_ber_tagged_explicit(rt: HostRuntime) -> Result<(), Fail> {
    expect_whole(
        &rt,
        parse_ber_tagged_explicit(rt.alloc(), Tag(0), integer_by_ber).parse(EXPLICIT),
    )
}

#[test]
fn wants_memory_parse_ber_optional(rt: HostRuntime) -> Result<(), Fail> {
    expect_whole(
        &rt,
        parse_ber_optional(rt.alloc(), integer_by_ber).parse(b"\x02\x01\x05"),
    )
}

#[test]
fn wants_memory_parse_ber_explicit_optional(rt: HostRuntime) -> Result<(), Fail> {
    expect_whole(
        &rt,
        parse_ber_explicit_optional(rt.alloc(), EXPLICIT, Tag(0), integer_by_ber),
    )
}

#[test]
fn wants_memory_parse_der_sequence_of(rt: HostRuntime) -> Result<(), Fail> {
    expect_whole(
        &rt,
        parse_der_sequence_of(rt.alloc(), integer_by_der).parse(INTEGERS),
    )
}

#[test]
fn wants_memory_parse_der_sequence_of_v(rt: HostRuntime) -> Result<(), Fail> {
    expect_numbers(
        &rt,
        parse_der_sequence_of_v(rt.alloc(), number_by_der).parse(INTEGERS),
    )
}

#[test]
fn wants_memory_parse_der_set_of(rt: HostRuntime) -> Result<(), Fail> {
    expect_whole(
        &rt,
        parse_der_set_of(rt.alloc(), integer_by_der).parse(INTEGER_SET),
    )
}

#[test]
fn wants_memory_parse_der_set_of_v(rt: HostRuntime) -> Result<(), Fail> {
    expect_numbers(
        &rt,
        parse_der_set_of_v(rt.alloc(), number_by_der).parse(INTEGER_SET),
    )
}

#[test]
fn wants_memory_parse_der_tagged_explicit(rt: HostRuntime) -> Result<(), Fail> {
    expect_whole(
        &rt,
        parse_der_tagged_explicit(rt.alloc(), Tag(0), integer_by_der).parse(EXPLICIT),
    )
}

#[test]
fn wants_memory_parse_der_optional(rt: HostRuntime) -> Result<(), Fail> {
    expect_whole(
        &rt,
        parse_der_optional(rt.alloc(), integer_by_der).parse(b"\x02\x01\x05"),
    )
}

#[test]
fn wants_memory_parse_der_explicit_optional(rt: HostRuntime) -> Result<(), Fail> {
    expect_whole(
        &rt,
        parse_der_explicit_optional(rt.alloc(), EXPLICIT, Tag(0), integer_by_der),
    )
}

/// The object is a SEQUENCE.
fn expect_list_object(rt: &impl Abort, object: &BerObject<'_>) {
    assert!(rt; object.as_sequence().is_ok());
}

#[test]
fn wants_memory_ber_object_from_any(rt: HostRuntime) -> Result<(), Fail> {
    let (_, any) = Any::from_ber(SEQUENCE)?;
    let object = ber_object_from_any(rt.alloc(), any)?;
    expect_list_object(&rt, &object);
    Ok(())
}

/// Both objects are the same.
fn expect_same<'a>(rt: &impl Abort, object: &BerObject<'a>, other: &BerObject<'a>) {
    assert!(rt; object == other);
}

/// The copy of the object is the same.
fn expect_copy(rt: &(impl Abort + AllocGlobal), object: &BerObject<'_>) -> Result<(), Fail> {
    let copy = object.try_clone(rt.alloc())?;
    expect_same(rt, &copy, object);
    Ok(())
}

#[test]
fn wants_memory_try_clone(rt: HostRuntime) -> Result<(), Fail> {
    match parse_der(rt.alloc(), SEQUENCE) {
        Ok((_, object)) => expect_copy(&rt, &object),
        Err(_) => Ok(()),
    }
}

/// The object's value is the identifier 2.999.
fn expect_oid(rt: &(impl Abort + AllocGlobal), object: &BerObject<'_>) -> Result<(), Fail> {
    let copy = object.as_oid_val(rt.alloc())?;
    assert!(rt; copy.as_bytes() == b"\x88\x37".as_slice());
    Ok(())
}

#[test]
fn wants_memory_as_oid_val(rt: HostRuntime) -> Result<(), Fail> {
    let Ok(oid) = Oid::from(rt.alloc(), &[2, 999]) else {
        return Ok(());
    };
    let object = BerObject::from_obj(BerObjectContent::OID(oid));
    expect_oid(&rt, &object)
}

#[test]
fn wants_memory_to_vec(rt: HostRuntime) -> Result<(), Fail> {
    let written = BerObject::from_int_slice(b"\x05").to_vec(rt.alloc())?;
    assert!(rt; written.as_slice() == b"\x02\x01\x05".as_slice());
    Ok(())
}

#[test]
fn wants_memory_oid_from(rt: HostRuntime) -> Result<(), Fail> {
    let oid = Oid::from(rt.alloc(), &[2, 999])?;
    assert!(rt; oid.as_bytes() == b"\x88\x37".as_slice());
    Ok(())
}

#[test]
fn wants_memory_oid_from_relative(rt: HostRuntime) -> Result<(), Fail> {
    let oid = Oid::from_relative(rt.alloc(), &[1079])?;
    assert!(rt; oid.as_bytes() == b"\x88\x37".as_slice());
    Ok(())
}

#[test]
fn wants_memory_oid_from_dotted(rt: HostRuntime) -> Result<(), Fail> {
    let oid = Oid::from_dotted(rt.alloc(), "2.999")?;
    assert!(rt; oid.as_bytes() == b"\x88\x37".as_slice());
    Ok(())
}

#[test]
fn wants_memory_oid_try_clone(rt: HostRuntime) -> Result<(), Fail> {
    let Ok(oid) = Oid::from(rt.alloc(), &[2, 999]) else {
        return Ok(());
    };
    let copy = oid.try_clone(rt.alloc())?;
    assert!(rt; copy == oid);
    Ok(())
}

/// A printer of the object prints what is inside it.
fn expect_printer(rt: &(impl Abort + AllocGlobal), object: &BerObject<'_>) -> Result<(), Fail> {
    let printer = object.as_pretty(rt.alloc(), 0, 2)?;
    assert!(rt; printer.is_flag_set(PrettyPrinterFlag::Recursive));
    Ok(())
}

#[test]
fn wants_memory_as_pretty(rt: HostRuntime) -> Result<(), Fail> {
    let object = BerObject::from_int_slice(b"\x05");
    expect_printer(&rt, &object)
}

/// Where there is no memory for a flag, the flags stay.
fn expect_flag(rt: &(impl Abort + AllocGlobal), object: &BerObject<'_>) -> Result<(), Fail> {
    let mut printer = PrettyBer::new(object, Vec::new(rt.alloc()), 0, 2);
    let set = printer.set_flag(PrettyPrinterFlag::ShowHeader);
    assert_eq!(rt;
        printer.is_flag_set(PrettyPrinterFlag::ShowHeader),
        set.is_ok()
    );
    assert!(rt; !printer.is_flag_set(PrettyPrinterFlag::Recursive));
    set?;
    Ok(())
}

#[test]
fn wants_memory_set_flag(rt: HostRuntime) -> Result<(), Fail> {
    let object = BerObject::from_int_slice(b"\x05");
    expect_flag(&rt, &object)
}

/// The printer of an object inside prints what is inside it.
fn expect_next<'o, 'a>(
    rt: &(impl Abort + AllocGlobal),
    printer: &PrettyBer<'o, 'a>,
    object: &'o BerObject<'a>,
) -> Result<(), Fail> {
    let next = printer.next_indent(rt.alloc(), object)?;
    assert!(rt; next.is_flag_set(PrettyPrinterFlag::Recursive));
    Ok(())
}

/// The object's printer makes one of an object inside.
fn expect_next_of(rt: &(impl Abort + AllocGlobal), object: &BerObject<'_>) -> Result<(), Fail> {
    match object.as_pretty(rt.alloc(), 0, 2) {
        Ok(printer) => expect_next(rt, &printer, object),
        Err(_) => Ok(()),
    }
}

#[test]
fn wants_memory_next_indent(rt: HostRuntime) -> Result<(), Fail> {
    let object = BerObject::from_int_slice(b"\x05");
    expect_next_of(&rt, &object)
}
