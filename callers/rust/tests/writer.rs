//! Elements that are written, in buffers of every capacity, and read back.
#![cfg(feature = "alloc")]
use dumarewhi::{
    check_der, to_der, to_vec, Any, Encode, Error, ErrorKind, Reader, Reason, Result, Tag, Time, Writer, Zone,
};

/// The personnel record of X.690 A.3.
const RECORD: &[u8] = b"\x60\x81\x85\
    \x61\x10\x1a\x04John\x1a\x01P\x1a\x05Smith\
    \xa0\x0a\x1a\x08Director\
    \x42\x01\x33\
    \xa1\x0a\x43\x0819710917\
    \xa2\x12\x61\x10\x1a\x04Mary\x1a\x01T\x1a\x05Smith\
    \xa3\x42\
    \x31\x1f\x61\x11\x1a\x05Ralph\x1a\x01T\x1a\x05Smith\xa0\x0a\x43\x0819571111\
    \x31\x1f\x61\x11\x1a\x05Susan\x1a\x01B\x1a\x05Jones\xa0\x0a\x43\x0819590717";

/// Name ::= [APPLICATION 1] IMPLICIT SEQUENCE { givenName, initial, familyName VisibleString }
struct Name(&'static str, &'static str, &'static str);

impl Encode for Name {
    fn encode(&self, w: &mut Writer<'_>) -> Result<()> {
        w.open_tagged(Tag::application(1), |w| {
            w.put_text(Tag::VISIBLE_STRING, self.0)?;
            w.put_text(Tag::VISIBLE_STRING, self.1)?;
            w.put_text(Tag::VISIBLE_STRING, self.2)
        })
    }
}

/// Date ::= [APPLICATION 3] IMPLICIT VisibleString, in an explicit tag.
fn date(w: &mut Writer<'_>, number: u32, text: &str) -> Result<()> {
    w.open_tagged(Tag::context(number), |w| {
        w.implicit(Tag::application(3))
            .put_text(Tag::VISIBLE_STRING, text)
    })
}

fn child(w: &mut Writer<'_>, name: Name, born: &str) -> Result<()> {
    w.open_set(|w| {
        w.put(&name)?;
        date(w, 0, born)
    })
}

fn record(w: &mut Writer<'_>) -> Result<()> {
    w.open_tagged(Tag::application(0), |w| {
        w.put(&Name("John", "P", "Smith"))?;
        w.open_tagged(Tag::context(0), |w| w.put_text(Tag::VISIBLE_STRING, "Director"))?;
        w.implicit(Tag::application(2)).put_u64(51);
        date(w, 1, "19710917")?;
        w.open_tagged(Tag::context(2), |w| w.put(&Name("Mary", "T", "Smith")))?;
        w.open_tagged(Tag::context(3), |w| {
            child(w, Name("Ralph", "T", "Smith"), "19571111")?;
            child(w, Name("Susan", "B", "Jones"), "19590717")
        })
    })
}

#[test]
fn each_capacity() {
    let needed = RECORD.len();
    for capacity in 0..needed + 3 {
        let mut buffer = vec![b'#'; needed + 3];
        let mut writer = Writer::new(&mut buffer[..capacity]);
        record(&mut writer).unwrap();
        assert_eq!(writer.offset(), needed);
        let finished = writer.finish();
        if capacity < needed {
            assert_eq!(finished, Err(Error::new(ErrorKind::NoRoom { needed }, 0)));
        } else {
            assert_eq!(finished, Ok(needed));
            assert_eq!(buffer[..needed], *RECORD);
            assert!(buffer[needed..].iter().all(|octet| *octet == b'#'));
        }
    }
    assert_eq!(to_vec(record).unwrap(), RECORD);
}

#[test]
fn each_size_of_a_length() {
    for size in [0, 1, 125, 126, 127, 128, 255, 256, 65_535, 65_536] {
        let content = vec![7; size];
        let octets = to_vec(|w| {
            w.open_sequence(|w| {
                w.put_octets(&content);
                w.open_octet_string(|w| w.put_octets(&content));
                w.put_bits(0, &content);
            });
            Ok(())
        })
        .unwrap();
        assert_eq!(check_der(&octets), Ok(4));
        assert_eq!(to_der(&octets).unwrap(), octets);
        let mut reader = Reader::new(&octets);
        let read = reader.open_sequence(|r| {
            let first = r.octets()?;
            let second = Any::from_der(r.octets()?)?.as_bytes()?;
            Ok((first, second, r.bits()?.raw_bytes()))
        });
        assert_eq!(read, Ok((&content[..], &content[..], &content[..])));
        reader.end().unwrap();
    }
}

/// A SET OF in order, texts of two octets a character, and negative numbers. The octets are those of
/// `openssl asn1parse -genconf`.
#[test]
fn values_of_openssl() {
    let octets = to_vec(|w| {
        w.open_set_of(|w| {
            w.put_i64(5);
            w.put_i64(3);
            w.put_bool(true);
            w.put_octets(b"a");
        });
        w.put_enumerated_i64(-129);
        w.put_enumerated_i64(128);
        w.put_bmp("Ab")?;
        w.implicit(Tag::context(5)).put_bmp("é€")?;
        w.put_null();
        Ok(())
    });
    let set = b"\x31\x0c\x01\x01\xff\x02\x01\x03\x02\x01\x05\x04\x01a".as_slice();
    let numbers = b"\x0a\x02\xff\x7f\x0a\x02\x00\x80";
    let texts = b"\x1e\x04\0A\0b\x85\x04\x00\xe9\x20\xac\x05\x00";
    assert_eq!(octets.unwrap(), [set, numbers, texts].concat());
    let beyond = to_vec(|w| w.put_bmp("\u{10000}")).unwrap_err();
    assert_eq!(beyond.kind(), ErrorKind::Value(Reason::INVALID_CHARACTER));
}

/// What is read of one value is written as the same octets.
#[test]
fn values_that_were_read() {
    let octets = to_vec(|w| {
        w.put_bool(true);
        w.put_i64(i64::MIN);
        w.put_u64(u64::MAX);
        w.put_magnitude(&[0xff; 20]);
        w.put_arcs(&[2, 999, 3])?;
        w.put_bits(4, &[0x0a, 0x3f]);
        w.put_utf8("é");
        w.put_enumerated(3);
        w.put_null();
        Ok(())
    })
    .unwrap();
    let mut r = Reader::new(&octets);
    let again = to_vec(|w| {
        let mut r = r.clone();
        w.put(&r.boolean()?)?;
        w.put(&r.i64()?)?;
        w.put(&r.u64()?)?;
        w.put(&r.integer()?)?;
        w.put(&r.oid()?)?;
        w.put(&r.bits()?)?;
        w.put(r.utf8_string()?)?;
        w.put(&r.any()?)?;
        w.put(&Some(r.any()?))?;
        w.put(&None::<bool>)?;
        r.end()
    });
    assert_eq!(again.unwrap(), octets);
    assert!(r.any().is_ok());
}

#[test]
fn lists_of_values() {
    let octets = to_vec(|w| w.put(&[1_u32, 300][..])).unwrap();
    assert_eq!(octets, [0x30, 7, 2, 1, 1, 2, 2, 1, 44]);
    let octets = to_vec(|w| w.put(&["a", "b"][..])).unwrap();
    assert_eq!(octets, b"\x30\x06\x0c\x01a\x0c\x01b");
    assert_eq!(to_vec(|w| w.put(&-1_i32)).unwrap(), [2, 1, 255]);
}

const TIME: Time = Time {
    year: 2026,
    month: 11,
    day: 27,
    hour: 9,
    minute: 5,
    second: 0,
    nanosecond: 0,
    zone: Zone::Utc,
};

#[test]
fn times() {
    assert_eq!(
        to_vec(|w| w.put_utc_time(TIME)).unwrap(),
        b"\x17\x0d261127090500Z"
    );
    let time = Time {
        nanosecond: 120_000_000,
        ..TIME
    };
    let octets = to_vec(|w| w.put_generalized_time(time)).unwrap();
    assert_eq!(octets, b"\x18\x1220261127090500.12Z");
    assert_eq!(Any::from_der(&octets).unwrap().as_time(), Ok(time));
}

#[test]
fn refused_values() {
    let reason = |put: &dyn Fn(&mut Writer<'_>) -> Result<()>| {
        let error = to_vec(|w| {
            w.put_null();
            put(w)
        })
        .unwrap_err();
        assert_eq!(error.offset(), 2);
        match error.kind() {
            ErrorKind::Value(reason) => reason,
            kind => panic!("{kind}"),
        }
    };
    assert_eq!(reason(&|w| w.put_arcs(&[1])), Reason::INVALID_LENGTH);
    assert_eq!(reason(&|w| w.put_arcs(&[3, 1])), Reason::WRONG_VALUE);
    assert_eq!(reason(&|w| w.put_printable("a@b")), Reason::INVALID_CHARACTER);
    assert_eq!(reason(&|w| w.put_ia5("é")), Reason::INVALID_CHARACTER);
    let year = Time { year: 2050, ..TIME };
    assert_eq!(reason(&|w| w.put_utc_time(year)), Reason::INVALID_TIME);
    let (hours, minutes) = (1, 0);
    let zone = Time {
        zone: Zone::Offset { hours, minutes },
        ..TIME
    };
    assert_eq!(reason(&|w| w.put_generalized_time(zone)), Reason::INVALID_TIME);
    let error = to_vec(|w| w.put_text(Tag::BMP_STRING, "a")).unwrap_err();
    assert!(matches!(error.kind(), ErrorKind::Other(_)));
}

/// An error leaves an implicit tag for the next element, and what isn't primitive drops it.
#[test]
fn implicit_tags_that_are_left() {
    let octets = |put: &dyn Fn(&mut Writer<'_>)| {
        to_vec(|w| {
            put(w.implicit(Tag::context(2)));
            w.put_null();
            Ok(())
        })
        .unwrap()
    };
    assert_eq!(octets(&|w| assert!(w.put_ia5("é").is_err())), [0x82, 0]);
    assert_eq!(octets(&|w| assert!(w.put_bmp("\u{1f600}").is_err())), [0x82, 0]);
    assert_eq!(
        octets(&|w| w.open_sequence(|w| w.put_null())),
        [0x30, 2, 5, 0, 5, 0]
    );
    assert_eq!(octets(&|w| w.open_set_of(|_| ())), [0x31, 0, 5, 0]);
    assert_eq!(octets(&|w| w.open_octet_string(|_| ())), [4, 0, 5, 0]);
    assert_eq!(
        octets(&|w| w.open_tagged(Tag::context(7), |_| ())),
        [0xa7, 0, 5, 0]
    );
    assert_eq!(octets(&|w| w.put_elements(&[])), [5, 0]);
    let closed = to_vec(|w| {
        w.open_sequence(|w| {
            w.implicit(Tag::context(2));
        });
        w.put_null();
        Ok(())
    });
    assert_eq!(closed.unwrap(), [0x30, 0, 5, 0]);
}

/// A writer that takes another one's place in the middle of an element is no harm, and an error at the end.
#[test]
fn swapped_writers() {
    let (mut first, mut second) = ([0; 16], [0; 16]);
    let mut other = Writer::new(&mut second);
    let mut writer = Writer::new(&mut first);
    other.put_null();
    writer.open_sequence(|w| {
        w.put_null();
        std::mem::swap(w, &mut other);
    });
    assert!(writer.finish().is_ok());
    assert!(other.finish().is_err());
}

/// A function that writes more the second time is an error, and one that writes less is no harm.
#[test]
fn functions_that_change() {
    let mut count = 0;
    let octets = to_vec(|w| {
        count += 1;
        (0..count).for_each(|_| w.put_null());
        Ok(())
    });
    assert_eq!(octets.unwrap_err().kind(), ErrorKind::NoRoom { needed: 4 });
    let mut count = 3;
    let octets = to_vec(|w| {
        count -= 1;
        (0..count).for_each(|_| w.put_null());
        Ok(())
    });
    assert_eq!(octets.unwrap(), [5, 0]);
}
