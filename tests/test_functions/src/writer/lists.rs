//! SET OF, values that may be absent, and named bits. Octets are of `openssl asn1parse -genconf`, but where a line says
//! otherwise.
ghost use Rattle.der_writer.specs.Fields.{OctetString, Sequence};

use der_writer::{Put, Writer, to_vec};
use std::test::Fail;

/// What is put, and its octets.
type Row = (&'static [&'static [u8]], &'static [u8]);

/// Elements, and the SET OF them. The last two rows are made by hand: two elements of which one is the other with an
/// octet of 0, and elements whose content is an element.
const SETS: &[Row] = &[
    (&[], b"\x31\x00"),
    (&[b"\x02\x01\x05"], b"\x31\x03\x02\x01\x05"),
    (
        &[
            b"\x02\x02\x01\x2c", b"\x02\x01\x05", b"\x04\x02ab", b"\x01\x01\xff", b"\x02\x01\x05", b"\x02\x01\xff",
            b"\x05\x00", b"\x04\x01a",
        ],
        b"\x31\x19\x01\x01\xff\x02\x01\x05\x02\x01\x05\x02\x01\xff\x02\x02\x01\x2c\x04\x01a\x04\x02ab\x05\x00",
    ),
    (
        &[
            b"\x04\x02\x01\x02", b"\x04\x02\x01\x00", b"\x04\x01\x01", b"\x30\x03\x02\x01\x01", b"\x80\x01\x00",
            b"\x0c\x01b", b"\x0c\x01a",
        ],
        b"\x31\x19\x04\x01\x01\x04\x02\x01\x00\x04\x02\x01\x02\x0c\x01a\x0c\x01b\x30\x03\x02\x01\x01\x80\x01\x00",
    ),
    (&[b"\x1f\x1f\x00", b"\x04\x01\x00", b"\x04\x00"], b"\x31\x08\x04\x00\x04\x01\x00\x1f\x1f\x00"),
    (
        &[b"\x30\x05\x30\x03\x02\x01\x09", b"\x30\x05\x02\x03\x01\x00\x00", b"\x30\x00"],
        b"\x31\x10\x30\x00\x30\x05\x02\x03\x01\x00\x00\x30\x05\x30\x03\x02\x01\x09",
    ),
];

/// Puts a SET OF elements.
fn put_set(fields: &mut Writer<'_>, elements: &[&[u8]]) {
    let set = fields.open_set();
    for element in elements {
        fields.put_elements(element);
    }
    fields.close_set_of(set);
}

/// Whether the SET OF elements is written behind an octet and in front of another, and counted where there is no room.
fn is_sorted(elements: &[&[u8]], expected: &[u8]) -> bool {
    let mut out = [0; 64];
    let mut fields = Writer::new(&mut out);
    let list = fields.open_octet_string();
    put_set(&mut fields, elements);
    fields.put_null();
    fields.close(list);
    let Ok(size) = fields.finish() else {
        return false;
    };
    let mut short = Writer::new(&mut []);
    put_set(&mut short, elements);
    size == expected.len() + 4 && &out[2..size - 2] == expected && short.count() == expected.len()
}

#[test]
fn elements_of_a_set_are_in_order(rt: HostRuntime) {
    for (elements, expected) in SETS {
        assert!(rt; is_sorted(elements, expected), "{expected:?}");
    }
}

#[test]
fn a_set_that_is_not_the_innermost_stays_open(rt: HostRuntime) {
    let mut out = [0; 16];
    let mut fields = Writer::new(&mut out);
    let set = fields.open_set();
    fields.put_u32(2);
    let _ = fields.open_set();
    fields.put_u32(1);
    fields.close_set_of(set);
    assert!(rt; fields.finish().is_err());
    assert!(rt; &out[..10] == b"\x31\x00\x02\x01\x02\x31\x00\x02\x01\x01".as_slice());
}

/// Elements that were written before.
struct Written {
    octets: &'static [u8],
}

impl Put for Written {
    ghost octets = { λ it. it.octets.now };

    fn put(&self, fields: &mut Writer<'_>) {
        fields.put_elements(self.octets);
    }
}

/// An OCTET STRING in a SEQUENCE.
struct Wrapped {
    octets: &'static [u8],
}

impl Put for Wrapped {
    ghost octets = { λ it. Sequence (OctetString it.octets.now) };

    fn put(&self, fields: &mut Writer<'_>) {
        let list = fields.open_sequence();
        fields.put_octets(self.octets);
        fields.close(list);
    }
}

#[test]
fn values_are_written_to_memory(rt: HostRuntime) -> Result<(), Fail> {
    let none = to_vec(rt.alloc(), &Written { octets: b"" })?;
    assert!(rt; none.is_empty());
    let null = to_vec(rt.alloc(), &Written { octets: b"\x05\x00" })?;
    assert_eq!(rt; null.as_slice(), b"\x05\x00".as_slice());
    let list = to_vec(rt.alloc(), &Wrapped { octets: b"ab" })?;
    assert_eq!(rt; list.as_slice(), b"\x30\x04\x04\x02ab".as_slice());
    Ok(())
}
