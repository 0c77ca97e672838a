//! Values of each type. Octets are those of X.690 where a line says so, else of `openssl asn1parse -genconf`.
use der_base::error::{BerError, OidParseError};
use der_base::header::Tag;
use der_base::time::{ASN1DateTime, ASN1TimeZone};
use der_values::ObjectIdentifier;
use der_writer::{Mark, WriteError, Writer};

/// Whether exactly these octets are put.
fn puts<F>(put: F, expected: &[u8]) -> bool
where
    F: FnOnce(&mut Writer<'_>),
{
    let mut out = [0; 64];
    let mut fields = Writer::new(&mut out);
    put(&mut fields);
    match fields.finish() {
        Ok(size) => &out[..size] == expected,
        Err(_) => false,
    }
}

#[test]
fn booleans_and_null(rt: HostRuntime) {
    assert!(rt; puts(|fields| fields.put_bool(true), b"\x01\x01\xff"));
    assert!(rt; puts(|fields| fields.put_bool(false), b"\x01\x01\x00"));
    assert!(rt; puts(|fields| fields.put_null(), b"\x05\x00"));
}

/// Numbers and their INTEGER.
const SIGNED: &[(i64, &[u8])] = &[
    (0, b"\x02\x01\x00"),
    (127, b"\x02\x01\x7f"),
    (128, b"\x02\x02\x00\x80"),
    (255, b"\x02\x02\x00\xff"),
    (256, b"\x02\x02\x01\x00"),
    (32767, b"\x02\x02\x7f\xff"),
    (32768, b"\x02\x03\x00\x80\x00"),
    (-1, b"\x02\x01\xff"),
    (-128, b"\x02\x01\x80"),
    (-129, b"\x02\x02\xff\x7f"),
    (-256, b"\x02\x02\xff\x00"),
    (-32768, b"\x02\x02\x80\x00"),
    (-32769, b"\x02\x03\xff\x7f\xff"),
    (i64::MAX, b"\x02\x08\x7f\xff\xff\xff\xff\xff\xff\xff"),
    (i64::MIN, b"\x02\x08\x80\x00\x00\x00\x00\x00\x00\x00"),
];

#[test]
fn signed_numbers(rt: HostRuntime) {
    for (value, expected) in SIGNED {
        assert!(rt; puts(|fields| fields.put_i64(*value), expected), "{value}");
    }
    assert!(rt; puts(|fields| fields.put_i32(-1000), b"\x02\x02\xfc\x18"));
}

#[test]
fn unsigned_numbers(rt: HostRuntime) {
    assert!(rt; puts(|fields| fields.put_u32(200), b"\x02\x02\x00\xc8"));
    assert!(rt; puts(|fields| fields.put_u64(u64::MAX), b"\x02\x09\x00\xff\xff\xff\xff\xff\xff\xff\xff"));
    assert!(rt; puts(|fields| fields.put_enumerated(128), b"\x0a\x02\x00\x80"));
    assert!(rt; puts(|fields| fields.put_enumerated_i64(128), b"\x0a\x02\x00\x80"));
    assert!(rt; puts(|fields| fields.put_enumerated_i64(-1), b"\x0a\x01\xff"));
    assert!(rt; puts(|fields| fields.put_enumerated_i64(-129), b"\x0a\x02\xff\x7f"));
    assert!(rt; puts(|fields| fields.put_integer(b"\xff\x7f"), b"\x02\x02\xff\x7f"));
}

#[test]
fn magnitudes(rt: HostRuntime) {
    assert!(rt; puts(|fields| fields.put_magnitude(b""), b"\x02\x01\x00"));
    assert!(rt; puts(|fields| fields.put_magnitude(b"\x00\x00"), b"\x02\x01\x00"));
    assert!(rt; puts(|fields| fields.put_magnitude(b"\x00\x7f"), b"\x02\x01\x7f"));
    assert!(rt; puts(|fields| fields.put_magnitude(b"\x80\x01"), b"\x02\x03\x00\x80\x01"));
}

#[test]
fn bits(rt: HostRuntime) {
    // X.690 8.6.4.2
    let bits = b"\x0a\x3b\x5f\x29\x1c\xdf";
    assert!(rt; puts(|fields| fields.put_bits(4, bits), b"\x03\x07\x04\x0a\x3b\x5f\x29\x1c\xd0"));
    assert!(rt; puts(|fields| fields.put_bits(0, b"\xff"), b"\x03\x02\x00\xff"));
    assert!(rt; puts(|fields| fields.put_bits(9, b"\xff"), b"\x03\x02\x07\x80"));
    assert!(rt; puts(|fields| fields.put_bits(3, b""), b"\x03\x01\x00"));
    assert!(rt; puts(|fields| fields.implicit(0).put_bits(1, b"\xff"), b"\x80\x02\x01\xfe"));
}

/// Puts an INTEGER in a BIT STRING, and one in an OCTET STRING.
fn put_wrapped(fields: &mut Writer<'_>) {
    let bits = fields.open_bit_string();
    fields.put_u32(5);
    fields.close(bits);
    let octets = fields.open_octet_string();
    fields.put_u32(5);
    fields.close(octets);
}

#[test]
fn elements_in_strings(rt: HostRuntime) {
    // `openssl asn1parse -genstr BITWRAP,INTEGER:5` and `OCTWRAP,INTEGER:5`
    assert!(rt; puts(put_wrapped, b"\x03\x04\x00\x02\x01\x05\x04\x03\x02\x01\x05"));
}

#[test]
fn identifiers_and_octets(rt: HostRuntime) {
    // X.690 8.19.5, 8.20.5
    assert!(rt; puts(|fields| fields.put_identifier(ObjectIdentifier::new(b"\x81\x34\x03")), b"\x06\x03\x81\x34\x03"));
    let relative = ObjectIdentifier::new_relative(b"\xc2\x7b\x03\x02");
    assert!(rt; puts(|fields| fields.put_identifier(relative), b"\x0d\x04\xc2\x7b\x03\x02"));
    // X.690 8.19.5
    assert!(rt; puts(|fields| fields.put_oid(b"\x81\x34\x03"), b"\x06\x03\x81\x34\x03"));
    assert!(rt; puts(|fields| fields.put_octets(b"\x01\x02"), b"\x04\x02\x01\x02"));
    assert!(rt; puts(|fields| fields.implicit(31).put_octets(b"\x01"), b"\x9f\x1f\x01\x01"));
}

/// Whether arcs are refused so, and nothing is put.
fn are_refused(arcs: &[u64], expected: OidParseError) -> bool {
    let mut out = [0; 16];
    let mut fields = Writer::new(&mut out);
    let refused = fields.put_arcs(arcs) == Err(expected);
    refused && fields.finish() == Ok(0)
}

/// Takes a result that a test doesn't look at.
fn drop_arcs(_result: Result<(), OidParseError>) {}

#[test]
fn arcs(rt: HostRuntime) {
    // X.690 8.19.5
    assert!(rt; puts(|fields| drop_arcs(fields.put_arcs(&[2, 100, 3])), b"\x06\x03\x81\x34\x03"));
    let rsa = [1, 2, 840, 113549];
    assert!(rt; puts(|fields| drop_arcs(fields.put_arcs(&rsa)), b"\x06\x06\x2a\x86\x48\x86\xf7\x0d"));
    assert!(rt; puts(|fields| drop_arcs(fields.put_arcs(&[0, 0])), b"\x06\x01\x00"));
    assert!(rt; puts(|fields| drop_arcs(fields.implicit(2).put_arcs(&[1, 39])), b"\x82\x01\x4f"));
    assert!(rt; are_refused(&[1], OidParseError::TooShort));
    assert!(rt; are_refused(&[1, 40], OidParseError::FirstComponentsTooLarge));
    assert!(rt; are_refused(&[3, 1], OidParseError::FirstComponentsTooLarge));
}

/// Whether a text is refused, and nothing is put.
fn is_refused<F>(put: F) -> bool
where
    F: FnOnce(&mut Writer<'_>) -> Result<(), BerError>,
{
    let mut out = [0; 16];
    let mut fields = Writer::new(&mut out);
    let refused = put(&mut fields) == Err(BerError::StringInvalidCharset);
    refused && fields.finish() == Ok(0)
}

#[test]
fn texts(rt: HostRuntime) {
    // X.690 8.14.3, Type1
    assert!(rt; puts(|fields| drop_result(fields.put_text(Tag::VisibleString, b"Jones")), b"\x1a\x05Jones"));
    assert!(rt; puts(|fields| fields.put_utf8("\u{e9}"), b"\x0c\x02\xc3\xa9"));
    assert!(rt; puts(|fields| drop_result(fields.put_printable("a b")), b"\x13\x03a b"));
    assert!(rt; puts(|fields| drop_result(fields.put_ia5("a@b")), b"\x16\x03a@b"));
    assert!(rt; puts(|fields| drop_result(fields.put_bmp(b"\x00A\x00b")), b"\x1e\x04\x00A\x00b"));
    assert!(rt; puts(|fields| drop_result(fields.put_bmp(b"\x00\xe9\x20\xac")), b"\x1e\x04\x00\xe9\x20\xac"));
    assert!(rt; is_refused(|fields| fields.put_bmp(b"\x00A\x00")));
    assert!(rt; is_refused(|fields| fields.put_bmp(b"\xd8\x00")));
    assert!(rt; is_refused(|fields| fields.put_printable("a@b")));
    assert!(rt; is_refused(|fields| fields.put_ia5("\u{e9}")));
    assert!(rt; is_refused(|fields| fields.put_text(Tag::Utf8String, b"\xc3")));
}

/// Takes a result that a test doesn't look at.
fn drop_result(_result: Result<(), BerError>) {}

/// 6 May 1991, 23:45:40 in UTC, with a fraction or without one.
fn moment(year: u32, nanosecond: Option<u32>) -> ASN1DateTime {
    ASN1DateTime {
        year,
        month: 5,
        day: 6,
        hour: 23,
        minute: 45,
        second: 40,
        nanosecond,
        tz: ASN1TimeZone::Z,
    }
}

#[test]
fn times(rt: HostRuntime) {
    assert!(rt; puts(|fields| fields.put_utc_time(moment(91, None)), b"\x17\x0d910506234540Z"));
    let whole = moment(1991, None);
    assert!(rt; puts(|fields| fields.put_generalized_time(whole), b"\x18\x0f19910506234540Z"));
    let tenths = moment(1991, Some(300_000_000));
    assert!(rt; puts(|fields| fields.put_generalized_time(tenths), b"\x18\x1119910506234540.3Z"));
}

/// Octets of named bits and their BIT STRING, by `openssl asn1parse -genstr FORMAT:BITLIST,BITSTRING:..`.
const NAMED_BITS: &[(&[u8], &[u8])] = &[
    (b"", b"\x03\x01\x00"),
    (b"\x00\x00", b"\x03\x01\x00"),
    (b"\x80", b"\x03\x02\x07\x80"),
    (b"\x40\x00", b"\x03\x02\x06\x40"),
    (b"\x01", b"\x03\x02\x00\x01"),
    (b"\x00\x80", b"\x03\x03\x07\x00\x80"),
    (b"\x06\x00\x00", b"\x03\x02\x01\x06"),
    (b"\x80\x80", b"\x03\x03\x07\x80\x80"),
    (b"\x50\x01", b"\x03\x03\x00\x50\x01"),
    (b"\x00\x00\x01\x00", b"\x03\x04\x00\x00\x00\x01"),
];

#[test]
fn named_bits(rt: HostRuntime) {
    for (octets, expected) in NAMED_BITS {
        assert!(rt; puts(|fields| fields.put_named_bits(octets), expected), "{expected:?}");
    }
    assert!(rt; puts(|fields| fields.implicit(1).put_named_bits(b"\x80"), b"\x81\x02\x07\x80"));
}

#[test]
fn values_that_may_be_absent(rt: HostRuntime) {
    assert!(rt; puts(|fields| fields.put_default_bool(false, false), b""));
    assert!(rt; puts(|fields| fields.put_default_bool(true, false), b"\x01\x01\xff"));
    assert!(rt; puts(|fields| fields.put_default_u64(1, 1), b""));
    assert!(rt; puts(|fields| fields.put_default_u64(2, 1), b"\x02\x01\x02"));
    assert!(rt; puts(|fields| fields.put_default_i64(-1, -1), b""));
    assert!(rt; puts(|fields| fields.implicit(0).put_default_i64(1, -1), b"\x80\x01\x01"));
    assert!(rt; puts(|fields| fields.put_optional_bool(None), b""));
    assert!(rt; puts(|fields| fields.put_optional_bool(Some(false)), b"\x01\x01\x00"));
    assert!(rt; puts(|fields| fields.put_optional_u64(Some(128)), b"\x02\x02\x00\x80"));
    assert!(rt; puts(|fields| fields.put_optional_i64(Some(-128)), b"\x02\x01\x80"));
    assert!(rt; puts(|fields| fields.implicit(3).put_optional_octets(Some(b"a")), b"\x83\x01a"));
}

#[test]
fn bits_identifiers_and_texts_that_may_be_absent(rt: HostRuntime) {
    assert!(rt; puts(|fields| fields.put_optional_bits(None), b""));
    assert!(rt; puts(|fields| fields.put_optional_bits(Some((4, b"\xab"))), b"\x03\x02\x04\xa0"));
    assert!(rt; puts(|fields| fields.put_default_bits(4, b"\xab", (4, b"\xa0")), b""));
    assert!(rt; puts(|fields| fields.put_default_bits(3, b"\xa0", (4, b"\xa0")), b"\x03\x02\x03\xa0"));
    assert!(rt; puts(|fields| fields.put_default_bits(9, b"\xff", (7, b"\x80")), b""));
    assert!(rt; puts(|fields| fields.put_default_bits(3, b"", (0, b"")), b""));
    assert!(rt; puts(|fields| fields.put_default_bits(0, b"", (0, b"\x00")), b"\x03\x01\x00"));
    assert!(rt; puts(|fields| fields.put_default_octets(b"a", b"a"), b""));
    assert!(rt; puts(|fields| fields.put_default_octets(b"a", b""), b"\x04\x01a"));
    assert!(rt; puts(|fields| fields.put_optional_oid(Some(b"\x2a")), b"\x06\x01\x2a"));
    assert!(rt; puts(|fields| fields.put_default_oid(b"\x2a", b"\x2a"), b""));
    assert!(rt; puts(|fields| fields.put_default_oid(b"\x2a", b"\x2b"), b"\x06\x01\x2a"));
    let relative = ObjectIdentifier::new_relative(b"\x05");
    assert!(rt; puts(|fields| fields.put_optional_identifier(Some(relative)), b"\x0d\x01\x05"));
    assert!(rt; puts(|fields| fields.put_optional_utf8(Some("")), b"\x0c\x00"));
    assert!(rt; puts(|fields| fields.put_default_utf8("a", "a"), b""));
    assert!(rt; puts(|fields| fields.put_default_utf8("a", "b"), b"\x0c\x01a"));
    let tag = Tag::Ia5String;
    assert!(rt; puts(|fields| drop_result(fields.put_optional_text(tag, None)), b""));
    assert!(rt; puts(|fields| drop_result(fields.put_optional_text(tag, Some(b"a"))), b"\x16\x01a"));
    assert!(rt; is_refused(|fields| fields.put_optional_text(tag, Some(b"\xe9"))));
    assert!(rt; puts(|fields| drop_result(fields.put_default_text(tag, b"a", b"a")), b""));
    assert!(rt; is_refused(|fields| fields.put_default_text(tag, b"\xe9", b"a")));
}

/// Closes an element by a writer that goes on where another one was.
fn resumed(out: &mut [u8]) -> Result<usize, WriteError> {
    let mut fields = Writer::new(out);
    let outer = fields.open_sequence();
    let inner = fields.open_set();
    fields.put_null();
    let (count, innermost) = (fields.count(), fields.innermost());
    let (first, second) = ((inner.start, inner.outer), (outer.start, outer.outer));
    let mut fields = Writer::resume(out, count, innermost);
    fields.close(Mark { start: first.0, outer: first.1 });
    fields.close(Mark { start: second.0, outer: second.1 });
    fields.finish()
}

#[test]
fn a_writer_goes_on(rt: HostRuntime) {
    let mut out = [0; 6];
    assert!(rt; resumed(&mut out) == Ok(6) && &out == b"\x30\x04\x31\x02\x05\x00");
    assert!(rt; resumed(&mut []) == Err(WriteError::NoRoom(6)));
}

/// Puts a NULL behind a value that is absent.
fn put_null_behind(fields: &mut Writer<'_>) {
    fields.implicit(3).put_optional_octets(None);
    fields.put_null();
    fields.implicit(3).put_default_u64(5, 5);
    fields.put_null();
}

#[test]
fn absent_values_have_no_tag(rt: HostRuntime) {
    assert!(rt; puts(put_null_behind, b"\x05\x00\x05\x00"));
}

/// The years of 1 January, 00:00:00 in UTC, and their times, by `openssl asn1parse -genstr UTC:..` and `GENTIME:..`.
const RFC5280_TIMES: &[(u32, &[u8])] = &[
    (1950, b"\x17\x0d500101000000Z"),
    (1999, b"\x17\x0d990101000000Z"),
    (2000, b"\x17\x0d000101000000Z"),
    (2049, b"\x17\x0d490101000000Z"),
    (2050, b"\x18\x0f20500101000000Z"),
    (9999, b"\x18\x0f99990101000000Z"),
];

/// 1 January, 00:00:00 in UTC.
fn first_moment(year: u32) -> ASN1DateTime {
    ASN1DateTime {
        year,
        month: 1,
        day: 1,
        hour: 0,
        minute: 0,
        second: 0,
        nanosecond: None,
        tz: ASN1TimeZone::Z,
    }
}

/// Whether it has no form in a certificate, and nothing is put.
fn is_no_rfc5280_time(value: ASN1DateTime) -> bool {
    let mut out = [0; 32];
    let mut fields = Writer::new(&mut out);
    let refused = fields.put_rfc5280_time(value) == Err(BerError::InvalidDateTime);
    refused && fields.finish() == Ok(0)
}

#[test]
fn times_of_certificates(rt: HostRuntime) {
    for (year, expected) in RFC5280_TIMES {
        let value = first_moment(*year);
        assert!(rt; puts(|fields| drop_result(fields.put_rfc5280_time(value)), expected), "{year}");
    }
    let first = first_moment(2026);
    assert!(rt; is_no_rfc5280_time(first_moment(1949)));
    assert!(rt; is_no_rfc5280_time(first_moment(10000)));
    assert!(rt; is_no_rfc5280_time(first_moment(26)));
    assert!(rt; is_no_rfc5280_time(ASN1DateTime { month: 0, ..first }));
    assert!(rt; is_no_rfc5280_time(ASN1DateTime { day: 32, ..first }));
    assert!(rt; is_no_rfc5280_time(ASN1DateTime { hour: 24, ..first }));
    assert!(rt; is_no_rfc5280_time(ASN1DateTime { minute: 60, ..first }));
    assert!(rt; is_no_rfc5280_time(ASN1DateTime { second: 60, ..first }));
    assert!(rt; is_no_rfc5280_time(ASN1DateTime { nanosecond: Some(0), ..first }));
    assert!(rt; is_no_rfc5280_time(ASN1DateTime { tz: ASN1TimeZone::Undefined, ..first }));
    assert!(rt; is_no_rfc5280_time(ASN1DateTime { tz: ASN1TimeZone::Offset(0, 0), ..first }));
}
