//! Parts, items and copies of an object, and want of memory for them.
use der_parser::ber::{BerObject, BerObjectContent};
use der_parser::error::Error::BerTypeError;
use der_parser::error::{BerError, Err as Refused};
use der_parser::oid::Oid;
use der_parser::parse_ber;
use std::alloc::{AllocError, Global};
use std::borrow::CowSlice;
use std::test::Fail;

/// An object of NULL.
fn null() -> BerObject<'static> {
    BerObject::from_obj(BerObjectContent::Null)
}

/// Whether the object is equal to that of NULL.
fn is_null(object: &BerObject<'static>) -> bool {
    *object == null()
}

/// Whether NULL has no items.
fn null_has_no_items() -> bool {
    let object = null();
    object.ref_iter().next().is_none()
}

/// Whether the last object that NULL is moved into is NULL.
fn null_is_moved() -> bool {
    match null().into_iter().last() {
        Some(object) => is_null(&object),
        None => false,
    }
}

#[test]
fn no_memory_for_items_of_null(rt: HostRuntime) {
    assert!(rt; null_has_no_items());
}

#[test]
fn no_memory_for_moving_null(rt: HostRuntime) {
    assert!(rt; null_is_moved());
    assert_eq!(rt; null().into_iter().count(), 1);
}

/// How each accessor but `as_oid_val` refuses the object, where it does.
fn refusals(object: &BerObject<'_>) -> [Option<BerError>; 9] {
    [
        object.as_bool().err(),
        object.as_oid().err(),
        object.as_bitstring().err(),
        object.as_bitstring_ref().err(),
        object.as_str().err(),
        object.as_slice().err(),
        object.as_sequence().err(),
        object.as_set().err(),
        object.as_datetime().err(),
    ]
}

/// Whether the answer is a refusal as of the wrong type.
fn is_wrong_type(given: Result<Oid<'_>, Refused<BerError>>) -> bool {
    given.is_err_and(|e| e == Refused::Error(BerTypeError))
}

/// A part that isn't there is refused as of the wrong type.
#[test]
fn no_memory_for_a_part_of_null(rt: HostRuntime) {
    let object = null();
    assert!(rt; refusals(&object) == [Some(BerTypeError); 9]);
}

#[test]
fn no_memory_for_an_identifier_of_null(rt: HostRuntime) {
    let object = null();
    assert!(rt; is_wrong_type(object.as_oid_val(rt.alloc())));
}

/// Whether the copy is equal, and its header tells the same length and identifier octets.
fn is_copy<'a>(object: &BerObject<'a>, copy: &BerObject<'a>) -> bool {
    let facts = [
        copy == object,
        copy.header.length() == object.header.length(),
        copy.header.raw_tag() == object.header.raw_tag(),
    ];
    facts.iter().all(|is_so| *is_so)
}

/// Whether the copy that the object gives is so.
fn has_copy(alloc: Global, object: &BerObject<'_>) -> Result<bool, AllocError> {
    let copy = object.try_clone(alloc)?;
    Ok(is_copy(object, &copy))
}

/// Whether the element's object has such a copy.
fn has_copy_of(alloc: Global, input: &[u8]) -> Result<bool, Refused<BerError>> {
    let (_, object) = parse_ber(alloc, input)?;
    Ok(has_copy(alloc, &object)?)
}

/// An object of the identifier 2.999, whose octets are borrowed.
fn borrowed_identifier() -> BerObject<'static> {
    BerObject::from(Oid::new(CowSlice::Borrowed(b"\x88\x37")))
}

/// Whether the answer is the identifier 2.999.
fn is_identifier(given: Result<Oid<'_>, Refused<BerError>>) -> bool {
    match given {
        Ok(oid) => oid.as_bytes() == b"\x88\x37".as_slice(),
        Err(_) => false,
    }
}

#[test]
fn no_memory_for_an_identifier(rt: HostRuntime) {
    let object = borrowed_identifier();
    assert!(rt; is_identifier(object.as_oid_val(rt.alloc())));
}

/// Whether the object, which is taken, has such a copy.
fn is_copied(alloc: Global, object: BerObject<'_>) -> Result<bool, AllocError> {
    has_copy(alloc, &object)
}

#[test]
fn no_memory_for_copies_of_leaves(rt: HostRuntime) -> Result<(), Fail> {
    assert!(rt; is_copied(rt.alloc(), borrowed_identifier())?);
    assert!(rt; is_copied(rt.alloc(), BerObject::from_int_slice(b"\x05"))?);
    assert!(rt; is_copied(rt.alloc(), BerObject::from_seq(Vec::new(rt.alloc())))?);
    Ok(())
}

/// Want of memory is told as such.
#[test]
fn refused_growths_of_copies(rt: HostRuntime) {
    let given = has_copy_of(rt.alloc(), b"\x30\x04\x30\x02\x05\x00");
    assert!(rt; matches!(given, Ok(true) | Err(Refused::OutOfMemory)));
}

/// Whether the answer is the identifier 2.999, or want of memory.
fn is_identifier_or_want(given: Result<Oid<'_>, Refused<BerError>>) -> bool {
    match given {
        Ok(oid) => oid.as_bytes() == b"\x88\x37".as_slice(),
        Err(e) => e == Refused::OutOfMemory,
    }
}

/// Want of memory is told as such.
#[test]
fn refused_growths_of_an_identifier(rt: HostRuntime) {
    if let Ok(oid) = Oid::from(rt.alloc(), &[2, 999]) {
        let object = BerObject::from(oid);
        assert!(rt; is_identifier_or_want(object.as_oid_val(rt.alloc())));
    }
}
