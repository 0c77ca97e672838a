//! Types that are read and written by their fields.
#![cfg(feature = "alloc")]
use dumarewhi::{
    oid, Any, BitString, Decode, Encode, ErrorKind, Integer, ObjectIdentifier, ObjectIdentifierBuf, Reader,
    Reason, Result, Rules, Tag, Time, Writer, Zone,
};
use std::fmt::Debug;

/// The value is written as these octets, and they are read as the value.
fn both_ways<'a, T: Decode<'a> + Encode + PartialEq + Debug>(value: T, octets: &'a [u8]) {
    assert_eq!(value.to_der().unwrap(), octets, "{value:?}");
    assert_eq!(T::from_der(octets), Ok(value));
}

#[test]
fn values() {
    both_ways(true, &[1, 1, 255]);
    both_ways(200_u16, &[2, 2, 0, 200]);
    both_ways(200_u32, &[2, 2, 0, 200]);
    both_ways(200_u64, &[2, 2, 0, 200]);
    both_ways(-128_i16, &[2, 1, 128]);
    both_ways(-128_i32, &[2, 1, 128]);
    both_ways(-128_i64, &[2, 1, 128]);
    both_ways(Integer::from_content(&[1, 0]).unwrap(), &[2, 2, 1, 0]);
    both_ways((), &[5, 0]);
    both_ways(oid!(2, 5, 4, 3), &[6, 3, 0x55, 4, 3]);
    both_ways(ObjectIdentifierBuf::from(oid!(2, 5, 4, 3)), &[6, 3, 0x55, 4, 3]);
    both_ways(BitString::new(4, &[0xf0]).unwrap(), &[3, 2, 4, 0xf0]);
    both_ways(&[1_u8, 2][..], &[4, 2, 1, 2]);
    both_ways("é", &[12, 2, 0xc3, 0xa9]);
    both_ways(String::from("é"), &[12, 2, 0xc3, 0xa9]);
    both_ways(vec![5_u64, 7], &[0x30, 6, 2, 1, 5, 2, 1, 7]);
    both_ways(Vec::<u64>::new(), &[0x30, 0]);
    both_ways(vec![vec![true], vec![]], &[0x30, 7, 0x30, 3, 1, 1, 255, 0x30, 0]);
    both_ways(Any::from_der(&[0x85, 1, 9]).unwrap(), &[0x85, 1, 9]);
    assert_eq!(vec![1_u8, 2].to_der().unwrap(), [4, 2, 1, 2]);
}

/// RFC 5280 4.1.2.5
#[test]
fn times() {
    let time = |year, nanosecond| Time {
        year,
        month: 1,
        day: 2,
        hour: 3,
        minute: 4,
        second: 5,
        nanosecond,
        zone: Zone::Utc,
    };
    both_ways(time(1950, 0), b"\x17\x0d500102030405Z");
    both_ways(time(2049, 0), b"\x17\x0d490102030405Z");
    both_ways(time(2050, 0), b"\x18\x0f20500102030405Z");
    both_ways(time(1949, 0), b"\x18\x0f19490102030405Z");
    both_ways(time(2020, 500_000_000), b"\x18\x1120200102030405.5Z");
}

#[test]
fn numbers_that_the_type_does_not_have() {
    let error = u16::from_der(&[2, 3, 1, 0, 0]).unwrap_err();
    assert_eq!(
        (error.kind(), error.offset()),
        (ErrorKind::Value(Reason::INTEGER_TOO_LARGE), 0)
    );
    assert_eq!(
        u32::from_der(&[2, 1, 255]).unwrap_err().kind(),
        ErrorKind::Value(Reason::INTEGER_NEGATIVE)
    );
    assert!(
        i16::from_der(&[2, 2, 0x7f, 0xff]) == Ok(i16::MAX) && i16::from_der(&[2, 3, 0, 0x80, 0]).is_err()
    );
    let number = Integer::from_content(&[0x7f]).unwrap();
    assert_eq!((u8::try_from(number), i8::try_from(number)), (Ok(127), Ok(127)));
    assert_eq!(
        (usize::try_from(number), isize::try_from(number)),
        (Ok(127), Ok(127))
    );
    assert!(i8::try_from(Integer::from_content(&[0, 128]).unwrap()).is_err());
}

#[test]
fn order_of_integers() {
    let contents: [&[u8]; 11] = [
        &[0x80, 0, 0],
        &[0xfe, 0, 0],
        &[0xff, 0x7f],
        &[0x80],
        &[0xff],
        &[0],
        &[1],
        &[0x7f],
        &[0, 0x80],
        &[1, 0],
        &[1, 0, 0],
    ];
    let sorted = contents.map(|content| Integer::from_content(content).unwrap());
    let mut shuffled = sorted;
    shuffled.reverse();
    shuffled.sort();
    assert_eq!(shuffled, sorted);
    let numbers = sorted.map(|it| it.to_i64().unwrap());
    assert!(numbers.windows(2).all(|pair| pair[0] < pair[1]));
    for content in [&[][..], &[0, 1], &[0xff, 0x80]] {
        assert!(Integer::from_content(content).is_err(), "{content:?}");
    }
}

/// SEQUENCE { version INTEGER DEFAULT 0, name UTF8String OPTIONAL, id OBJECT IDENTIFIER, rest ANY OPTIONAL }
#[derive(Debug, PartialEq)]
struct Entry<'a> {
    version: u32,
    name: Option<&'a str>,
    id: ObjectIdentifier<'a>,
    rest: Option<Any<'a>>,
}

impl<'a> Decode<'a> for Entry<'a> {
    fn decode(r: &mut Reader<'a>) -> Result<Entry<'a>> {
        r.open_sequence(|r| {
            Ok(Entry {
                version: r.value_or(0)?,
                name: r.value()?,
                id: r.value()?,
                rest: r.value()?,
            })
        })
    }
}

impl Encode for Entry<'_> {
    fn encode(&self, w: &mut Writer<'_>) -> Result<()> {
        w.open_sequence(|w| {
            w.put_default(&self.version, &0)?;
            w.put(&self.name)?;
            w.put(&self.id)?;
            w.put(&self.rest)
        })
    }
}

#[test]
fn fields() {
    let (id, rest) = (oid!(2, 5), Any::from_der(&[0xa0, 2, 5, 0]).unwrap());
    for version in [0, 3] {
        for name in [None, Some("a")] {
            for rest in [None, Some(rest)] {
                let entry = Entry {
                    version,
                    name,
                    id,
                    rest,
                };
                let octets = entry.to_der().unwrap();
                assert_eq!(Entry::from_der(&octets).as_ref(), Ok(&entry));
                assert_eq!(
                    Vec::<Entry>::from_der(&[octets.clone(), octets].as_list())
                        .unwrap()
                        .len(),
                    2
                );
            }
        }
    }
    // An absent field at the end of an input.
    assert_eq!(Option::<Entry>::from_der(&[]), Ok(None));
}

/// A SEQUENCE OF elements that are written.
trait AsList {
    fn as_list(&self) -> Vec<u8>;
}

impl AsList for [Vec<u8>; 2] {
    fn as_list(&self) -> Vec<u8> {
        let content = self.concat();
        [&[0x30, content.len() as u8], &content[..]].concat()
    }
}

/// X.690 11.5 is a rule of DER alone.
#[test]
fn defaults_that_are_written() {
    let octets = [0x30, 6, 2, 1, 0, 6, 1, 0x55];
    let error = Entry::from_der(&octets).unwrap_err();
    assert_eq!((error.offset(), error.to_string().contains("11.5")), (2, true));
    assert_eq!(Entry::from_ber(&octets).unwrap().version, 0);
    let mut reader = Reader::with_rules(&[1, 1, 0], Rules::BER);
    assert_eq!(reader.value_or(false), Ok(false));
    reader.end().unwrap();
}

#[test]
fn octets_after_a_value() {
    assert_eq!(
        bool::from_der(&[1, 1, 255, 0]).unwrap_err().kind(),
        ErrorKind::TrailingData
    );
    assert!(bool::from_der(&[1, 1]).unwrap_err().is_incomplete());
}

/// A list of values that may be absent has no end.
#[test]
fn a_list_of_nothing() {
    assert!(Vec::<Option<bool>>::from_der(&[0x30, 3, 2, 1, 5]).is_err());
    assert_eq!(
        Vec::<Option<bool>>::from_der(&[0x30, 3, 1, 1, 255]),
        Ok(vec![Some(true)])
    );
}

/// The same element at two offsets.
#[test]
fn elements_are_equal_by_their_octets() {
    let mut reader = Reader::new(&[5, 0, 5, 0, 0x85, 0]);
    let (first, second, third) = (
        reader.any().unwrap(),
        reader.any().unwrap(),
        reader.any().unwrap(),
    );
    assert!(first == second && first.offset() != second.offset() && first != third);
    assert_eq!(Any::try_from(&[5, 0][..]), Ok(first));
    assert_eq!(first.tag(), Tag::NULL);
}

/// Any thread may have them.
#[test]
fn types_are_for_any_thread() {
    fn is_for_any_thread<T: Send + Sync>() {}
    is_for_any_thread::<Any<'_>>();
    is_for_any_thread::<Reader<'_>>();
    is_for_any_thread::<Writer<'_>>();
    is_for_any_thread::<ObjectIdentifierBuf>();
    is_for_any_thread::<dumarewhi::Tree<'_>>();
    is_for_any_thread::<dumarewhi::Error>();
    is_for_any_thread::<dumarewhi::x509::Certificate<'_>>();
    is_for_any_thread::<dumarewhi::x509::Extension<'_>>();
    is_for_any_thread::<dumarewhi::x509::Error>();
}
