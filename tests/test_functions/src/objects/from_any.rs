//! Want of memory for the object of an element that was read apart.
use der_parser::ber::{Any, Tag, ber_object_from_any};
use der_parser::error::Err::OutOfMemory;

/// Where a growth is refused, the answer is OutOfMemory and no other.
#[test]
fn refused_growths_of_an_object(rt: HostRuntime) {
    let any = Any::from_tag_and_data(Tag::Sequence, b"\x05\x00");
    match ber_object_from_any(rt.alloc(), any) {
        Ok(object) => assert_eq!(rt; object.header, any.header),
        Err(e) => assert_eq!(rt; e, OutOfMemory),
    }
}
