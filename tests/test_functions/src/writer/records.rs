//! The example of X.690 A.3 and an SNMP message, in buffers of every capacity.
use der_base::header::{Class, Tag};
use der_parser::parse_der;
use der_writer::{WriteError, Writer};
use messages::snmp::writer::{write_get_request, write_response};
use std::alloc::Global;
use std::test::Fail;

/// A personnel record (X.690 A.3).
const RECORD: &[u8] = b"\x60\x81\x85\
    \x61\x10\x1a\x04John\x1a\x01P\x1a\x05Smith\
    \xa0\x0a\x1a\x08Director\
    \x42\x01\x33\
    \xa1\x0a\x43\x0819710917\
    \xa2\x12\x61\x10\x1a\x04Mary\x1a\x01T\x1a\x05Smith\
    \xa3\x42\
    \x31\x1f\x61\x11\x1a\x05Ralph\x1a\x01T\x1a\x05Smith\xa0\x0a\x43\x0819571111\
    \x31\x1f\x61\x11\x1a\x05Susan\x1a\x01B\x1a\x05Jones\xa0\x0a\x43\x0819590717";

/// Puts a VisibleString, if the text is one.
fn put_visible(fields: &mut Writer<'_>, text: &str) {
    let _ = fields.put_text(Tag::VisibleString, text.as_bytes());
}

/// Puts a date: [APPLICATION 3] IMPLICIT VisibleString.
fn put_date(fields: &mut Writer<'_>, text: &str) {
    let _ = fields
        .implicit_of(Class::Application, 3)
        .put_text(Tag::VisibleString, text.as_bytes());
}

/// Puts a name: [APPLICATION 1] IMPLICIT SEQUENCE.
fn put_name(fields: &mut Writer<'_>, given: &str, initial: &str, family: &str) {
    let name = fields.open(Class::Application, true, Tag(1));
    put_visible(fields, given);
    put_visible(fields, initial);
    put_visible(fields, family);
    fields.close(name);
}

/// Puts a child: a SET.
fn put_child(fields: &mut Writer<'_>, given: &str, initial: &str, family: &str, born: &str) {
    let child = fields.open_set();
    put_name(fields, given, initial, family);
    let date = fields.open_tagged(0);
    put_date(fields, born);
    fields.close(date);
    fields.close(child);
}

/// Writes the record.
fn write_record(out: &mut [u8]) -> Result<usize, WriteError> {
    let mut fields = Writer::new(out);
    let record = fields.open(Class::Application, true, Tag(0));
    put_name(&mut fields, "John", "P", "Smith");
    let title = fields.open_tagged(0);
    put_visible(&mut fields, "Director");
    fields.close(title);
    fields.implicit_of(Class::Application, 2).put_u32(51);
    let hired = fields.open_tagged(1);
    put_date(&mut fields, "19710917");
    fields.close(hired);
    let spouse = fields.open_tagged(2);
    put_name(&mut fields, "Mary", "T", "Smith");
    fields.close(spouse);
    let children = fields.open_tagged(3);
    put_child(&mut fields, "Ralph", "T", "Smith", "19571111");
    put_child(&mut fields, "Susan", "B", "Jones", "19590717");
    fields.close(children);
    fields.close(record);
    fields.finish()
}

/// What is in a buffer before anything is written.
const FILL: u8 = 0xee;

/// Whether these octets are written to a buffer of this capacity, if it has room, and nothing behind them.
fn fits<F>(expected: &[u8], capacity: usize, write: F) -> bool
where
    F: FnOnce(&mut [u8]) -> Result<usize, WriteError>,
{
    let mut buffer = [FILL; 256];
    let result = write(&mut buffer[..capacity]);
    let behind = if capacity < expected.len() { capacity } else { expected.len() };
    let stays = buffer[behind..].iter().all(|octet| *octet == FILL);
    let written = match result {
        Ok(size) => size == expected.len() && &buffer[..size] == expected,
        Err(e) => capacity < expected.len() && e == WriteError::NoRoom(expected.len()),
    };
    written && stays
}

#[test]
fn record_of_the_standard_in_every_capacity(rt: HostRuntime) {
    for capacity in 0..RECORD.len() + 3 {
        assert!(rt; fits(RECORD, capacity, write_record), "{capacity}");
    }
}

/// A GetRequest for sysDescr.0, assembled field by field from RFC 1901 and RFC 3416.
const GET_REQUEST: &[u8] = b"\x30\x26\x02\x01\x01\x04\x06public\
    \xa0\x19\x02\x01\x26\x02\x01\x00\x02\x01\x00\
    \x30\x0e\x30\x0c\x06\x08\x2b\x06\x01\x02\x01\x01\x01\x00\x05\x00";

/// The Response to it.
const RESPONSE: &[u8] = b"\x30\x2b\x02\x01\x01\x04\x06public\
    \xa2\x1e\x02\x01\x26\x02\x01\x00\x02\x01\x00\
    \x30\x13\x30\x11\x06\x08\x2b\x06\x01\x02\x01\x01\x01\x00\x04\x054.3 B";

/// The content octets of 1.3.6.1.2.1.1.1.0.
const SYS_DESCR: &[u8] = b"\x2b\x06\x01\x02\x01\x01\x01\x00";

fn get_request(out: &mut [u8]) -> Result<usize, WriteError> {
    write_get_request(out, b"public", 38, SYS_DESCR)
}

fn response(out: &mut [u8]) -> Result<usize, WriteError> {
    write_response(out, b"public", 38, SYS_DESCR, b"4.3 B")
}

#[test]
fn messages_in_every_capacity(rt: HostRuntime) {
    for capacity in 0..GET_REQUEST.len() + 3 {
        assert!(rt; fits(GET_REQUEST, capacity, get_request), "{capacity}");
    }
    for capacity in 0..RESPONSE.len() + 3 {
        assert!(rt; fits(RESPONSE, capacity, response), "{capacity}");
    }
}

/// Whether what is written is one object by DER, which is written as the same octets.
fn is_read_back(alloc: Global, octets: &[u8]) -> bool {
    let Ok((rest, object)) = parse_der(alloc, octets) else {
        return false;
    };
    match object.to_vec(alloc) {
        Ok(written) => rest.is_empty() && &written[..] == octets,
        Err(_) => false,
    }
}

#[test]
fn messages_are_read_back(rt: HostRuntime) {
    assert!(rt; is_read_back(rt.alloc(), GET_REQUEST));
    assert!(rt; is_read_back(rt.alloc(), RESPONSE));
    assert!(rt; is_read_back(rt.alloc(), RECORD));
}

/// How an element ends that isn't closed.
fn left_open(out: &mut [u8]) -> Result<usize, WriteError> {
    let mut fields = Writer::new(out);
    let _ = fields.open_sequence();
    fields.put_null();
    fields.finish()
}

/// How elements end that are closed in the order in which they were opened.
fn closed_in_order_of_opening(out: &mut [u8]) -> Result<usize, WriteError> {
    let mut fields = Writer::new(out);
    let outer = fields.open_sequence();
    let inner = fields.open_set();
    fields.close(outer);
    fields.close(inner);
    fields.finish()
}

/// How an element ends that is closed by the mark of another writer.
fn closed_by_another_mark(out: &mut [u8]) -> Result<usize, WriteError> {
    let mut other_buffer = [0; 8];
    let mut other = Writer::new(&mut other_buffer);
    other.put_null();
    let mark = other.open_sequence();
    let mut fields = Writer::new(out);
    let _ = fields.open_sequence();
    fields.close(mark);
    fields.finish()
}

#[test]
fn misused_marks_are_errors(rt: HostRuntime) {
    let mut out = [0; 16];
    assert!(rt; left_open(&mut out) == Err(WriteError::NotClosed));
    assert!(rt; closed_in_order_of_opening(&mut out) == Err(WriteError::NotClosed));
    assert!(rt; closed_by_another_mark(&mut out) == Err(WriteError::NotClosed));
}

#[test]
fn errors_have_texts(rt: HostRuntime) -> Result<(), Fail> {
    let no_room = format!(in rt.alloc(); "{}", WriteError::NoRoom(7))?;
    assert_eq!(rt; no_room.as_str(), "no room, needs 7");
    let not_closed = format!(in rt.alloc(); "{}", WriteError::NotClosed)?;
    assert_eq!(rt; not_closed.as_str(), "element not closed");
    Ok(())
}
