//! Elements as DER writes them.
#[cfg(feature = "alloc")]
use dumarewhi::to_der;
use dumarewhi::{write_der, Error, ErrorKind, Reason};

/// X.690 8.9.3 with an indefinite length, and by DER.
const SMITH: &[u8] = b"\x30\x80\x16\x05Smith\x01\x01\x01\x00\x00";
const SMITH_BY_DER: &[u8] = b"\x30\x0a\x16\x05Smith\x01\x01\xff";

#[test]
fn each_room() {
    for room in 0..=SMITH_BY_DER.len() + 2 {
        let mut out = [b'#'; 16];
        let length = write_der(SMITH, &mut out[..room]).unwrap();
        assert_eq!(length, SMITH_BY_DER.len());
        if room >= length {
            assert_eq!(out[..length], *SMITH_BY_DER);
            assert!(out[length..].iter().all(|octet| *octet == b'#'));
        }
        assert!(out[room..].iter().all(|octet| *octet == b'#'));
    }
    assert_eq!(write_der(SMITH_BY_DER, &mut [0; 12]), Ok(12));
    assert_eq!(write_der(&[], &mut []), Ok(0));
}

#[test]
fn errors_have_their_place_in_the_input() {
    // A UTCTime without seconds (X.690 11.8.2).
    let error = write_der(b"\x30\x80\x05\x00\x17\x0b9912312359Z\x00\x00", &mut [0; 32]).unwrap_err();
    assert_eq!(error.offset(), 4);
    assert_eq!(
        error.to_string(),
        "a time has no seconds (X.690 11.7.2, 11.8.2) at offset 4"
    );
    // An INTEGER as a part of an OCTET STRING (8.7.3.2).
    let error = write_der(&[0x24, 0x80, 2, 1, 5, 0, 0], &mut [0; 32]).unwrap_err();
    assert_eq!(
        error.to_string(),
        "a part of a constructed string isn't an OCTET STRING, or of a BIT STRING no BIT STRING \
         (X.690 8.6.4 and 8.7.3) at offset 2"
    );
    let error = write_der(&SMITH[..5], &mut [0; 32]).unwrap_err();
    assert_eq!(error, Error::new(ErrorKind::Incomplete { missing: 4 }, 5));
}

fn octets(hex: &str) -> Vec<u8> {
    hex.split_whitespace()
        .map(|pair| u8::from_str_radix(pair, 16).unwrap())
        .collect()
}

/// Inputs that aren't written, why not, and at which offset.
#[rustfmt::skip]
const FAULTS: &[(&str, Reason, usize)] = &[
    // X.690 8.4 as 8.3.1: an ENUMERATED has an octet.
    ("0a 00", Reason::NUMBER_EMPTY, 0),
    ("0a 00 00", Reason::NUMBER_EMPTY, 0),
    // 11.8.2: a time without seconds. 8.25: one that ends in them.
    ("17 0b 30 34 30 33 30 38 30 33 31 36 5a", Reason::TIME_WITHOUT_SECONDS, 0),
    ("17 0b 30 34 30 33 30 38 30 33 31 36 5a 01 02 00 00", Reason::TIME_WITHOUT_SECONDS, 0),
    ("17 0b 30 34 30 33 30 38 30 33 31 36 33 35 5a", Reason::TIME_TEXT, 0),
    ("17 0b 30 34 30 33 30 38 30 33 31 36 33 35 5a 01 02 00 00", Reason::TIME_TEXT, 0),
    // 8.1.3.6: the inner list has no end marker. 8.3.1: the INTEGER in it has no octet, which comes first.
    ("30 04 30 80 05 00", Reason::NO_END_MARKER, 2),
    ("30 04 30 80 02 00", Reason::NUMBER_EMPTY, 4),
    // 8.19.2, 8.20.2: an identifier has an arc, and each arc its last octet.
    ("06 00", Reason::IDENTIFIER_EMPTY, 0),
    ("0d 00", Reason::IDENTIFIER_EMPTY, 0),
    ("06 01 ff", Reason::ARC_OPEN, 0),
    ("06 03 55 04 83", Reason::ARC_OPEN, 0),
    ("06 01 80", Reason::ARC_OPEN, 0),
    // 8.6.4: the first part has unused bits, and another follows.
    ("23 08 03 02 01 80 03 02 00 80", Reason::UNUSED_BITS_INSIDE, 6),
];

/// The error is the first fault, whatever follows and whatever the capacity.
#[test]
fn first_faults() {
    for (input, reason, offset) in FAULTS {
        let expected = Err(Error::new(ErrorKind::Malformed(*reason), *offset));
        for capacity in [0, 32] {
            let written = write_der(&octets(input), &mut [0; 32][..capacity]);
            assert_eq!(written, expected, "{input}");
        }
    }
}

#[test]
fn missing_octets() {
    for (input, missing) in [
        // 8.1.3: no end limits a length, up to 2^64-1.
        ("02 88 ff ff ff ff ff ff ff f6", usize::MAX - 9),
        ("02 88 ff ff ff ff ff ff ff f5", usize::MAX - 10),
        ("02 88 ff ff ff ff ff ff ff ff", usize::MAX),
        ("30 88 ff ff ff ff ff ff ff f5", usize::MAX - 10),
        // 8.1.3.6: an outermost indefinite length says no more than its end marker.
        ("30 80 30 05", 2),
    ] {
        let input = octets(input);
        let expected = Err(Error::new(ErrorKind::Incomplete { missing }, input.len()));
        assert_eq!(write_der(&input, &mut [0; 32]), expected, "{input:02x?}");
    }
}

/// The length of the list takes more octets than its indefinite form and the end marker.
#[cfg(feature = "alloc")]
#[test]
fn elements_that_grow() {
    let string = [&[0x04, 0x83, 0x01, 0x11, 0x70][..], &[7; 70_000]].concat();
    let list = [&[0x30, 0x80][..], &string, &[0, 0]].concat();
    let by_der = [&[0x30, 0x83, 0x01, 0x11, 0x75][..], &string].concat();
    assert!(by_der.len() > list.len());
    assert_eq!(to_der(&list).unwrap(), by_der);
    assert_eq!(to_der(&by_der).unwrap(), by_der);
    assert_eq!(to_der(SMITH).unwrap(), SMITH_BY_DER);
}
