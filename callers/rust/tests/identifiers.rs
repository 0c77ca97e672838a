//! Object identifiers of arcs and texts. Expected octets are those of openssl, X.690 8.19.5 and X.667.
use dumarewhi::{oid, ObjectIdentifier};
#[cfg(feature = "alloc")]
use dumarewhi::{to_vec, ObjectIdentifierBuf, Reason};

/// The UUID f81d4fae-7dec-11d0-a765-00a0c91e6bf6 of X.667.
const UUID: ObjectIdentifier<'static> = oid!(2, 25, 329800735698586629295641978511506172918);

const RSA: ObjectIdentifier<'static> = oid!(1, 2, 840, 113549, 1, 1, 5);

#[test]
fn constants() {
    assert_eq!(RSA.as_bytes(), [0x2a, 0x86, 0x48, 0x86, 0xf7, 0x0d, 1, 1, 5]);
    assert_eq!(oid!(2, 999, 3).as_bytes(), [0x88, 0x37, 3]);
    assert_eq!(oid!(0, 0).as_bytes(), [0]);
    assert_eq!(oid!(1, 39).as_bytes(), [79]);
    assert_eq!(oid!(2, 0).as_bytes(), [80]);
    let octets = b"\x69\x83\xf0\x9d\xa7\xeb\xcf\xde\xe0\xc7\xa1\xa7\xb2\xc0\x94\x8c\xc8\xf9\xd7\x76";
    assert_eq!(UUID.as_bytes(), octets);
    assert_eq!(ObjectIdentifier::ANY_POLICY.as_bytes(), b"\x55\x1d\x20\x00");
    assert_eq!(ObjectIdentifier::COMMON_NAME.to_string(), "2.5.4.3");
}

#[test]
fn arcs() {
    assert!(UUID.arcs().eq([2, 25, 329800735698586629295641978511506172918]));
    assert!(RSA.arcs().eq([1, 2, 840, 113549, 1, 1, 5]));
    assert!(oid!(2, 5).arcs().eq([2, 5]));
    let empty = ObjectIdentifier::from_content(&[]).unwrap();
    assert_eq!(empty.arcs().next(), None);
    // The largest subidentifier, 2^128-1, and so the second arc 2^128-81.
    let mut content = [0xff; 19];
    (content[0], content[18]) = (0x83, 0x7f);
    let largest = ObjectIdentifier::from_content(&content).unwrap();
    assert!(largest.arcs().eq([2, u128::MAX - 80]));
    assert_eq!(largest.to_string(), format!("2.{}", u128::MAX - 80));
    assert_eq!(largest, oid!(2, u128::MAX - 80));
}

#[test]
fn order() {
    // By octets, 2.5.4.16384 (55 04 81 80 00) would be before 2.5.4.16383 (55 04 ff 7f).
    let sorted = [
        oid!(0, 39),
        oid!(1, 2),
        oid!(1, 2, 840),
        oid!(1, 3),
        oid!(2, 5, 4),
        oid!(2, 5, 4, 3),
        oid!(2, 5, 4, 3, 1),
        oid!(2, 5, 4, 16383),
        oid!(2, 5, 4, 16384),
        UUID,
        oid!(2, 40),
    ];
    let mut shuffled = sorted;
    shuffled.reverse();
    shuffled.sort();
    assert_eq!(shuffled, sorted);
    // 8.19.2 has no padded arc, and it is another spelling.
    let padded = ObjectIdentifier::from_content(&[0x55, 0x80, 4]).unwrap();
    assert!(padded.arcs().eq([2, 5, 4]) && padded != oid!(2, 5, 4) && padded > oid!(2, 5, 4));
}

#[test]
#[cfg(feature = "alloc")]
fn texts() {
    for text in [
        "0.0",
        "1.39.0",
        "2.5.4.3",
        "2.999.340282366920938463463374607431768211455",
    ] {
        let identifier: ObjectIdentifierBuf = text.parse().unwrap();
        assert_eq!(identifier.to_string(), text);
        assert_eq!(identifier, identifier.as_oid());
        assert_eq!(ObjectIdentifierBuf::from(identifier.as_oid()), identifier);
    }
    let reason = |text: &str| text.parse::<ObjectIdentifierBuf>().unwrap_err();
    assert_eq!(reason("1"), Reason::INVALID_LENGTH);
    assert_eq!(reason("3.1"), Reason::WRONG_VALUE);
    assert_eq!(reason("1.40"), Reason::WRONG_VALUE);
    for text in [
        "",
        ".",
        "2.",
        ".2",
        "2..5",
        "2.05",
        "+2.5",
        "2.5 ",
        "a.b",
        "2.-5",
        "2.5.340282366920938463463374607431768211456",
    ] {
        assert_eq!(reason(text), Reason::INVALID_VALUE, "{text}");
    }
}

/// What the library writes of the same arcs.
#[test]
#[cfg(feature = "alloc")]
fn as_the_library_writes_them() {
    let numbers: [u64; 14] = [
        0,
        1,
        39,
        40,
        47,
        48,
        127,
        128,
        16383,
        16384,
        1 << 32,
        1 << 62,
        u64::MAX - 80,
        u64::MAX,
    ];
    for first in 0..=3 {
        for second in numbers {
            for third in numbers {
                let arcs = [first, second, third];
                let own = ObjectIdentifierBuf::from_arcs(&arcs.map(u128::from));
                let written = to_vec(|w| w.put_arcs(&arcs));
                match (own, written) {
                    (Ok(own), Ok(written)) => assert_eq!(own.as_oid().as_bytes(), &written[2..]),
                    // Here a second arc may be above 2^64-81.
                    (own, written) => assert!(written.is_err() && (own.is_err() || second > u64::MAX - 80)),
                }
            }
        }
    }
}
