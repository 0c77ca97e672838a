//! Values of elements. Expected ones are from X.690, X.680 and RFC 5280, or are arithmetic.
use dumarewhi::{Any, BitString, ErrorKind, ObjectIdentifier, Reason, Tag, Zone};

/// A primitive element of a universal type.
fn element(number: u8, content: &[u8]) -> Vec<u8> {
    [&[number, content.len() as u8], content].concat()
}

#[test]
fn integers() {
    let rows: &[(&[u8], Option<i64>, Option<u64>)] = &[
        (&[0], Some(0), Some(0)),
        (&[0x7f], Some(127), Some(127)),
        (&[0, 0x80], Some(128), Some(128)),
        (&[0x80], Some(-128), None),
        (&[0xff, 0x7f], Some(-129), None),
        (
            &[0x7f, 255, 255, 255, 255, 255, 255, 255],
            Some(i64::MAX),
            Some(i64::MAX as u64),
        ),
        (&[0x80, 0, 0, 0, 0, 0, 0, 0], Some(i64::MIN), None),
        (&[0, 0x80, 0, 0, 0, 0, 0, 0, 0], None, Some(1 << 63)),
        (&[0, 255, 255, 255, 255, 255, 255, 255, 255], None, Some(u64::MAX)),
        (&[1, 0, 0, 0, 0, 0, 0, 0, 0], None, None),
        (&[0xff, 0x7f, 255, 255, 255, 255, 255, 255, 255], None, None),
    ];
    for (content, signed, unsigned) in rows {
        let input = element(2, content);
        let any = Any::from_der(&input).unwrap();
        assert_eq!(any.as_i64().ok(), *signed, "{content:?}");
        assert_eq!(any.as_u64().ok(), *unsigned, "{content:?}");
        assert_eq!(any.as_integer().unwrap().as_bytes(), *content);
    }
}

/// X.690 8.3.1 and 8.3.2, by BER too: one octet at least, and the fewest.
#[test]
fn padded_integers() {
    let reason = |content: &[u8]| Any::from_ber(&element(2, content)).unwrap_err().kind();
    assert_eq!(reason(&[0, 5]), ErrorKind::Malformed(Reason::NUMBER_PADDED));
    assert_eq!(
        reason(&[255, 255, 0x7f]),
        ErrorKind::Malformed(Reason::NUMBER_PADDED)
    );
    assert_eq!(reason(&[]), ErrorKind::Malformed(Reason::NUMBER_EMPTY));
}

#[test]
fn numbers_that_do_not_fit_say_why() {
    let text = |content: &[u8]| {
        Any::from_der(&element(2, content))
            .unwrap()
            .as_u64()
            .unwrap_err()
            .to_string()
    };
    assert!(text(&[0x80]).contains("integer negative"));
    assert!(text(&[1, 0, 0, 0, 0, 0, 0, 0, 0]).contains("integer too large"));
}

#[test]
fn booleans() {
    assert!(Any::from_der(&[1, 1, 255]).unwrap().as_bool().unwrap());
    assert!(!Any::from_der(&[1, 1, 0]).unwrap().as_bool().unwrap());
    assert!(Any::from_ber(&[1, 1, 1]).unwrap().as_bool().unwrap());
}

#[test]
fn identifiers() {
    let rows: &[(&[u8], &str)] = &[
        (&[0x55, 4, 3], "2.5.4.3"),
        // X.690 8.19.5
        (&[0x88, 0x37, 3], "2.999.3"),
        (
            &[0x2a, 0x86, 0x48, 0x86, 0xf7, 0x0d, 1, 1, 5],
            "1.2.840.113549.1.1.5",
        ),
        (&[], ""),
        (&[0], "0.0"),
        (&[39], "0.39"),
        (&[40], "1.0"),
        (&[79], "1.39"),
        (&[80], "2.0"),
        (
            &[0x2a, 0xff, 0xff, 0xff, 0xff, 0xff, 0xff, 0xff, 0xff, 0x7f],
            "1.2.9223372036854775807",
        ),
        (
            &[0x2a, 0x81, 0x80, 0x80, 0x80, 0x80, 0x80, 0x80, 0x80, 0x80, 0],
            "1.2.9223372036854775808",
        ),
        (
            // The UUID f81d4fae-7dec-11d0-a765-00a0c91e6bf6, as X.667 writes it.
            b"\x69\x83\xf0\x9d\xa7\xeb\xcf\xde\xe0\xc7\xa1\xa7\xb2\xc0\x94\x8c\xc8\xf9\xd7\x76",
            "2.25.329800735698586629295641978511506172918",
        ),
    ];
    for (content, text) in rows {
        let oid = ObjectIdentifier::from_content(content).unwrap();
        assert_eq!(oid.to_string(), *text);
        assert!(oid == *text);
        assert!(oid != "1.3.6");
        assert_eq!(format!("{oid:>24}"), format!("{text:>24}"));
    }
}

/// An identifier whose text has 256 octets, and others. A longer text needs memory.
#[test]
fn long_identifiers() {
    for arcs in [50, 64, 65, 500] {
        let content = vec![127; arcs];
        let text = format!("2.47{}", ".127".repeat(arcs - 1));
        let identifier = ObjectIdentifier::from_content(&content).unwrap();
        let has_text = arcs <= 64 || cfg!(feature = "alloc");
        let digits = format!("#{}", "7f".repeat(arcs));
        assert_eq!(
            identifier.to_string(),
            if has_text { text.clone() } else { digits }
        );
        assert_eq!(identifier == text.as_str(), has_text);
    }
}

#[test]
fn identifiers_that_are_cut_have_no_text() {
    assert!(ObjectIdentifier::from_content(&[0x55, 0x84]).is_err());
    let mut content = [0x80; 20];
    content[..2].copy_from_slice(&[0x69, 0x84]);
    content[19] = 0;
    assert!(ObjectIdentifier::from_content(&content).is_err());
    content[1] = 0x83;
    assert!(ObjectIdentifier::from_content(&content).is_ok());
    let error = Any::from_der(&[6, 2, 0x55, 0x84]).unwrap_err();
    assert_eq!(error.kind(), ErrorKind::Malformed(Reason::ARC_OPEN));
}

#[test]
fn texts() {
    let rows: &[(u8, &str)] = &[
        (12, "é€𝄞"),
        (18, "0 12"),
        (19, "Test User 1"),
        (20, "t61"),
        (21, "v"),
        (22, "a@b"),
        (25, "g"),
        (26, "~ "),
        (27, "general"),
        (7, "descriptor"),
    ];
    for (number, text) in rows {
        let input = element(*number, text.as_bytes());
        assert_eq!(Any::from_der(&input).unwrap().as_str().unwrap(), *text);
    }
    let error = Any::from_der(&[4, 1, b'a']).unwrap().as_str().unwrap_err();
    assert_eq!(
        error.kind(),
        ErrorKind::UnexpectedTag {
            expected: None,
            actual: Tag::OCTET_STRING
        }
    );
}

#[test]
fn bit_strings() {
    // X.690 8.6.4.2
    let input = [3, 7, 4, 0x0a, 0x3b, 0x5f, 0x29, 0x1c, 0xd0];
    let bits = Any::from_der(&input).unwrap().as_bit_string().unwrap();
    assert_eq!(
        (bits.len(), bits.unused_bits(), bits.raw_bytes()),
        (44, 4, &input[3..])
    );
    let spelled: String = (0..44)
        .map(|at| if bits.bit(at).unwrap() { '1' } else { '0' })
        .collect();
    let number = u64::from_str_radix(&spelled, 2).unwrap();
    assert_eq!(number, 0x0a3b5f291cd);
    assert_eq!(bits.bit(44), None);
    let empty = Any::from_der(&[3, 1, 0]).unwrap().as_bit_string().unwrap();
    assert!(empty.is_empty());
    assert_eq!(empty.as_bytes(), Some(&[][..]));
}

/// X.690 8.6.2, by BER too.
#[test]
fn bit_strings_with_wrong_counts() {
    let rows: &[(&[u8], Reason)] = &[
        (&[3, 2, 8, 0], Reason::UNUSED_BITS_ABOVE_SEVEN),
        (&[3, 2, 255, 0], Reason::UNUSED_BITS_ABOVE_SEVEN),
        (&[3, 1, 1], Reason::UNUSED_BITS_OF_NONE),
        (&[3, 0], Reason::UNUSED_BITS_MISSING),
    ];
    for (input, reason) in rows {
        let error = Any::from_ber(input).unwrap_err();
        assert_eq!(error.kind(), ErrorKind::Malformed(*reason), "{input:?}");
    }
    assert_eq!(BitString::new(8, &[0]), Err(Reason::UNUSED_BITS_ABOVE_SEVEN));
    assert_eq!(BitString::new(1, &[]), Err(Reason::UNUSED_BITS_OF_NONE));
}

/// X.690 8.23.5: the octets of a TeletexString needn't be UTF-8, and then they are no `&str`.
#[test]
fn texts_that_are_not_utf8() {
    let any = Any::from_der(&[20, 1, 0xe9]).unwrap();
    assert!(matches!(any.as_str().unwrap_err().kind(), ErrorKind::Value(_)));
    assert_eq!(any.content(), [0xe9]);
}

#[test]
fn times() {
    // RFC 5280 4.1.2.5.1: 50 to 99 are 1950 to 1999.
    let rows: &[(u8, &str, &str)] = &[
        (23, "500101000000Z", "1950-01-01T00:00:00Z"),
        (23, "491231235959Z", "2049-12-31T23:59:59Z"),
        (23, "991231235959Z", "1999-12-31T23:59:59Z"),
        (24, "20500101000000Z", "2050-01-01T00:00:00Z"),
        (24, "19851106210627.3Z", "1985-11-06T21:06:27.300000000Z"),
    ];
    for (number, text, shown) in rows {
        let input = element(*number, text.as_bytes());
        assert_eq!(
            Any::from_der(&input).unwrap().as_time().unwrap().to_string(),
            *shown
        );
    }
    let rows: &[(u8, &str, &str)] = &[
        (23, "8201021200Z", "1982-01-02T12:00:00Z"),
        (23, "8201020700-0500", "1982-01-02T07:00:00-05:00"),
        (24, "19851106210627.3-0530", "1985-11-06T21:06:27.300000000-05:30"),
        (24, "19851106210627.3", "1985-11-06T21:06:27.300000000"),
        (24, "198511062106+0100", "1985-11-06T21:06:00+01:00"),
    ];
    for (number, text, shown) in rows {
        let input = element(*number, text.as_bytes());
        assert_eq!(
            Any::from_ber(&input).unwrap().as_time().unwrap().to_string(),
            *shown
        );
    }
    let time = Any::from_ber(b"\x17\x0f8201020700-0030")
        .unwrap()
        .as_time()
        .unwrap();
    assert_eq!(
        time.zone,
        Zone::Offset {
            hours: 0,
            minutes: -30
        }
    );
    assert_eq!(time.to_string(), "1982-01-02T07:00:00-00:30");
}

/// The accessor of another type is an error that names both.
#[test]
fn other_types() {
    let any = Any::from_der(&[5, 0]).unwrap();
    assert!(any.is_null());
    let kind = |expected| ErrorKind::UnexpectedTag {
        expected: Some(expected),
        actual: Tag::NULL,
    };
    assert_eq!(any.as_bool().unwrap_err().kind(), kind(Tag::BOOLEAN));
    assert_eq!(any.as_i64().unwrap_err().kind(), kind(Tag::INTEGER));
    assert_eq!(any.as_oid().unwrap_err().kind(), kind(Tag::OBJECT_IDENTIFIER));
    assert_eq!(any.as_bytes().unwrap_err().kind(), kind(Tag::OCTET_STRING));
    assert_eq!(any.as_bit_string().unwrap_err().kind(), kind(Tag::BIT_STRING));
    assert_eq!(any.as_time().unwrap_err().kind(), kind(Tag::GENERALIZED_TIME));
}

/// The class counts too: this is [1], and no BOOLEAN.
#[test]
fn other_classes() {
    let any = Any::from_der(&[0x81, 1, 255]).unwrap();
    assert_eq!(any.tag(), Tag::context(1));
    assert!(any.as_bool().is_err());
    assert_eq!(Any::from_der(&[0x41, 0]).unwrap().tag(), Tag::application(1));
    assert_eq!(Any::from_der(&[0xc1, 0]).unwrap().tag(), Tag::private(1));
    assert_eq!(
        Any::from_der(&[0x5f, 0x22, 0]).unwrap().tag().to_string(),
        "[APPLICATION 34]"
    );
}

/// X.690 8.7.3.2: an OCTET STRING may be constructed by BER. Its parts are read one after the other.
#[test]
fn constructed_octet_strings() {
    let input = [0x24, 0x80, 4, 1, b'a', 4, 1, b'b', 0, 0];
    let any = Any::from_ber(&input).unwrap();
    assert_eq!(
        any.as_bytes().unwrap_err().kind(),
        ErrorKind::PrimitiveExpected(Tag::OCTET_STRING)
    );
    assert_eq!((any.content(), any.octets()), (&input[2..8], &input[..]));
    let mut reader = any.reader().unwrap();
    assert_eq!(
        (reader.octets().unwrap(), reader.octets().unwrap()),
        (&b"a"[..], &b"b"[..])
    );
    reader.end().unwrap();
}
