//! Fields, one after the other.
use dumarewhi::{check_ber, Any, Error, ErrorKind, Reader, Reason, Rules, Tag, Tree};

#[test]
fn every_type() {
    let input: Vec<u8> = [
        &[1, 1, 255][..],
        &[2, 1, 0x80],
        &[2, 2, 0, 200],
        &[10, 1, 3],
        &[5, 0],
        &[6, 3, 0x55, 4, 3],
        &[4, 2, 1, 2],
        &[3, 2, 4, 0xf0],
        &[12, 2, 0xc3, 0xa9],
        &[19, 1, b'P'],
        &[22, 1, b'@'],
        &[26, 1, b'~'],
        b"\x17\x0d200101000000Z",
        &[0x85, 1, 9],
    ]
    .concat();
    let mut r = Reader::new(&input);
    assert_eq!(r.boolean(), Ok(true));
    assert_eq!(r.integer().unwrap().as_bytes(), [0x80]);
    assert_eq!(r.u64(), Ok(200));
    assert_eq!(r.enumerated(), Ok(3));
    assert_eq!(r.null(), Ok(()));
    assert!(r.oid().unwrap() == "2.5.4.3");
    assert_eq!(r.octets(), Ok(&[1, 2][..]));
    assert_eq!(r.bits().unwrap().len(), 4);
    assert_eq!(r.utf8_string(), Ok("é"));
    assert_eq!(r.printable_string(), Ok("P"));
    assert_eq!(r.ia5_string(), Ok("@"));
    assert_eq!(r.any_text(), Ok("~"));
    assert_eq!(r.time().unwrap().year, 2020);
    assert_eq!(r.any().unwrap().tag(), Tag::context(5));
    r.end().unwrap();
}

#[test]
fn an_error_leaves_the_reader_where_it_was() {
    let mut r = Reader::new(&[2, 1, 5, 5, 0]);
    let error = r.boolean().unwrap_err();
    let kind = ErrorKind::UnexpectedTag {
        expected: Some(Tag::BOOLEAN),
        actual: Tag::INTEGER,
    };
    assert_eq!(error, Error::new(kind, 0));
    assert_eq!(r.offset(), 0);
    assert_eq!(r.u64(), Ok(5));
    assert_eq!((r.offset(), r.remaining()), (3, &[5, 0][..]));
    assert_eq!(
        r.clone().end().unwrap_err(),
        Error::new(ErrorKind::TrailingData, 3)
    );
}

#[test]
fn sequences_are_read_to_their_end() {
    let input = [0x30, 6, 2, 1, 5, 2, 1, 7];
    assert_eq!(
        Reader::new(&input).open_sequence(|r| Ok((r.u64()?, r.u64()?))),
        Ok((5, 7))
    );
    let error = Reader::new(&input).open_sequence(|r| r.u64()).unwrap_err();
    assert_eq!(error, Error::new(ErrorKind::TrailingData, 5));
    let error = Reader::new(&input)
        .open_sequence(|r| Ok((r.u64()?, r.u64()?, r.u64()?)))
        .unwrap_err();
    assert_eq!(error, Error::new(ErrorKind::MissingElement, 8));
}

/// What is inside an element is checked as its fields are read, or with an element of any type.
#[test]
fn what_is_inside_is_checked() {
    let input = [0x30, 6, 2, 1, 5, 1, 1, 7];
    let mut r = Reader::new(&input);
    let error = r.open_sequence(|r| Ok((r.u64()?, r.boolean()?))).unwrap_err();
    assert_eq!((error.offset(), r.offset()), (5, 0));
    let error = r.any().unwrap_err();
    assert_eq!((error.offset(), r.offset()), (5, 0));
    assert_eq!(error.reason(), Some(Reason::BOOLEAN_VALUE));
}

#[test]
fn input_that_is_cut_is_incomplete() {
    let input = [0x30, 6, 2, 1, 5, 2, 1, 7];
    for end in 0..input.len() {
        let error = Reader::new(&input[..end])
            .open_sequence(|r| Ok((r.u64()?, r.u64()?)))
            .unwrap_err();
        assert!(error.is_incomplete(), "{end}: {error}");
    }
}

/// X.690 8.3.1, 8.3.2 and 8.4, by either rules: a number has octets, and the fewest.
#[test]
fn needless_octets() {
    for rules in [Rules::BER, Rules::DER] {
        for (content, reason) in [
            (&[][..], Reason::INTEGER_EMPTY),
            (&[0, 1], Reason::INTEGER_LEADING_ZEROES),
            (&[0, 0x7f], Reason::INTEGER_LEADING_ZEROES),
            (&[255, 0x80], Reason::INTEGER_LEADING_FF),
            (&[255, 255], Reason::INTEGER_LEADING_FF),
        ] {
            let error = Error::new(ErrorKind::Malformed(reason), 0);
            let element = |octet| [&[octet, content.len() as u8], content].concat();
            let (integer, enumerated, implicit) = (element(2), element(10), element(0x83));
            let read = |input| Reader::with_rules(input, rules);
            assert_eq!(read(&integer).integer(), Err(error), "{content:?}");
            assert_eq!(read(&integer).u64(), Err(error));
            assert_eq!(read(&integer).i64(), Err(error));
            assert_eq!(read(&integer).value::<u16>(), Err(error));
            assert_eq!(read(&enumerated).enumerated(), Err(error));
            let tag = Tag::context(3);
            assert_eq!(read(&implicit).implicit(tag).integer(), Err(error));
            assert_eq!(read(&implicit).implicit(tag).enumerated(), Err(error));
        }
        let fewest = Reader::with_rules(&[2, 2, 0, 0x80], rules).integer();
        assert_eq!(fewest.unwrap().as_bytes(), [0, 0x80]);
        assert_eq!(
            Reader::with_rules(&[10, 2, 255, 0x7f], rules).enumerated(),
            Ok(-129)
        );
    }
}

/// X.690 8.6.2, by either rules: at most seven bits are unused, and none of no octet.
#[test]
fn unused_bits() {
    let read = |rules, input| Reader::with_rules(input, rules).bits();
    for rules in [Rules::BER, Rules::DER] {
        for (input, reason) in [
            (&[3, 1, 1][..], Reason::UNUSED_BITS_NOT_ZERO),
            (&[3, 1, 7], Reason::UNUSED_BITS_NOT_ZERO),
            (&[3, 1, 8], Reason::INVALID_VALUE),
            (&[3, 2, 8, 0], Reason::INVALID_VALUE),
            (&[3, 2, 255, 0], Reason::INVALID_VALUE),
        ] {
            let error = Error::new(ErrorKind::Malformed(reason), 0);
            assert_eq!(read(rules, input), Err(error), "{input:?}");
        }
        let none = read(rules, &[3, 1, 0]).unwrap();
        assert_eq!((none.len(), none.bit(0), none.iter().next()), (0, None, None));
        let one = read(rules, &[3, 2, 7, 0x80]).unwrap();
        assert_eq!((one.len(), one.bit(0), one.bit(1)), (1, Some(true), None));
        assert_eq!(
            (one.iter().len(), one.iter().collect::<Vec<_>>()),
            (1, vec![true])
        );
    }
    let implicit = Reader::with_rules(&[0x83, 1, 1], Rules::BER)
        .implicit(Tag::context(3))
        .bits();
    let error = Error::new(ErrorKind::Malformed(Reason::UNUSED_BITS_NOT_ZERO), 0);
    assert_eq!(implicit, Err(error));
    let set = Reader::with_rules(&[3, 2, 7, 0x81], Rules::BER).bits();
    assert_eq!(set.unwrap().len(), 1);
}

/// BER has times that no `Time` is, as an offset in hours alone (X.680 46.3), and texts that are none.
#[test]
fn times_without_a_value() {
    let input = b"\x18\x1120200101000000+01";
    assert_eq!(check_ber(input), Ok(1));
    let value = Error::new(ErrorKind::Value(Reason::INVALID_TIME), 0);
    assert_eq!(Any::from_ber(input).unwrap().as_time(), Err(value));
    assert_eq!(Tree::parse_ber(input).unwrap().root().as_time(), Err(value));
    let mut r = Reader::with_rules(input, Rules::BER);
    assert_eq!(r.generalized_time(), Err(value));
    assert_eq!(r.time(), Err(value));
    let malformed = Error::new(ErrorKind::Malformed(Reason::INVALID_TIME), 0);
    let mut r = Reader::with_rules(b"\x18\x1120200101000000+0x", Rules::BER);
    assert_eq!(r.time(), Err(malformed));
}

/// What is in a tag isn't input that could still come.
#[test]
fn content_that_is_cut_is_no_incomplete_input() {
    let error = Reader::new(&[0xa0, 2, 2, 1])
        .open_tagged(Tag::context(0), |r| r.u64())
        .unwrap_err();
    assert_eq!(error, Error::new(ErrorKind::Malformed(Reason::OVERRUN), 2));
}

/// 49 indefinite lengths inside one another are framed.
#[test]
fn indefinite_lengths_are_bounded() {
    let input = |levels: usize| [[0x30, 0x80].repeat(levels), [0, 0].repeat(levels)].concat();
    let read = |input: &[u8]| {
        let mut r = Reader::with_rules(input, Rules::BER);
        r.open_sequence(|r| r.any().map(|any| any.octets().len()))
    };
    assert_eq!(read(&input(49)), Ok(4 * 48));
    assert_eq!(read(&input(50)).unwrap_err().reason(), Some(Reason::MAX_DEPTH));
}

#[test]
fn optional_fields() {
    let present = [0xa0, 3, 2, 1, 2, 1, 1, 0];
    let fields = |input: &'static [u8]| {
        let mut r = Reader::new(input);
        let version = r.optional_tagged(Tag::context(0), |r| r.u64())?;
        let flag = r.optional(Tag::BOOLEAN, |r| r.boolean())?;
        r.end().map(|()| (version, flag))
    };
    assert_eq!(fields(&[0xa0, 3, 2, 1, 2, 1, 1, 0]), Ok((Some(2), Some(false))));
    assert_eq!(fields(&[0xa0, 3, 2, 1, 2]), Ok((Some(2), None)));
    assert_eq!(fields(&[1, 1, 0]), Ok((None, Some(false))));
    assert_eq!(fields(&[]), Ok((None, None)));
    assert!(fields(&[1, 1]).unwrap_err().is_incomplete());
    assert!(fields(&[0xa0, 5, 2, 1, 2, 5, 0]).is_err());
    assert_eq!(Reader::new(&present).peek(), Ok(Some(Tag::context(0))));
}

#[test]
fn primitive_elements_have_no_fields() {
    let error = Reader::new(&[0x80, 1, 5])
        .open_tagged(Tag::context(0), |r| r.u64())
        .unwrap_err();
    assert_eq!(error.kind(), ErrorKind::ConstructedExpected(Tag::context(0)));
}

#[test]
fn implicit_tags_are_checked_as_their_type() {
    fn read<T>(input: &[u8], call: impl FnOnce(&mut Reader<'_>) -> dumarewhi::Result<T>) -> bool {
        call(Reader::new(input).implicit(Tag::context(1))).is_ok()
    }
    assert!(read(&[0x81, 1, 5], |r| r.integer().map(drop)));
    assert!(!read(&[0x81, 2, 0, 5], |r| r.integer().map(drop)));
    assert!(!read(&[0x81, 0], |r| r.integer().map(drop)));
    assert!(!read(&[0x81, 1, 7], |r| r.boolean()));
    assert!(!read(&[0xa1, 3, 2, 1, 5], |r| r.integer().map(drop)));
    assert!(!read(&[0x81, 1, 255], |r| r.utf8_string().map(drop)));
    assert!(read(&[0x81, 1, 255], |r| r.octets().map(drop)));
    assert!(!read(&[0xa1, 3, 4, 1, 255], |r| r.octets().map(drop)));
    assert!(!read(&[0x82, 1, 5], |r| r.integer().map(drop)));
}

/// Lengths in one octet, in two, in three and in four.
#[test]
fn implicit_tags_of_any_length() {
    for length in [0, 1, 119, 120, 121, 127, 128, 129, 255, 256, 257, 70_000] {
        let spelled = (length as u32).to_be_bytes();
        let mut input = vec![0x81];
        match length {
            0..=127 => input.push(length as u8),
            128..=255 => input.extend([0x81, length as u8]),
            256..=65_535 => input.extend([0x82, spelled[2], spelled[3]]),
            _ => input.extend([0x83, spelled[1], spelled[2], spelled[3]]),
        }
        input.extend(vec![b'a'; length]);
        let read = |input: &[u8]| {
            let text = Reader::new(input).implicit(Tag::context(1)).ia5_string()?.len();
            Ok::<_, Error>(text)
        };
        assert_eq!(read(&input), Ok(length));
        if let Some(last) = input.last_mut().filter(|_| length > 0) {
            *last = 0x80;
            assert!(read(&input).is_err());
        }
    }
}

/// The tag is that of the next element alone, and is kept until that is read.
#[test]
fn implicit_tags_of_values() {
    let (one, two) = (Tag::context(1), Tag::application(2));
    let mut r = Reader::new(&[0x81, 1, 5, 0x42, 1, 0x80, 0x81, 1, 255, 2, 1, 7]);
    assert_eq!(r.implicit(one).value::<u32>(), Ok(5));
    let error = r.u64().unwrap_err();
    let unexpected = |expected, actual| ErrorKind::UnexpectedTag {
        expected: Some(expected),
        actual,
    };
    assert_eq!(error, Error::new(unexpected(Tag::INTEGER, two), 3));
    let error = r.implicit(one).enumerated().unwrap_err();
    assert_eq!(error, Error::new(unexpected(one, two), 3));
    assert_eq!(r.implicit(two).enumerated(), Ok(-128));
    assert_eq!(r.implicit(two).value::<Option<bool>>(), Ok(None));
    assert_eq!(r.implicit(one).value::<Option<bool>>(), Ok(Some(true)));
    assert_eq!(r.u64(), Ok(7));
    r.end().unwrap();
    let mut r = Reader::new(b"\x83\x0d491231235959Z\xa4\x03\x02\x01\x05");
    assert_eq!(r.implicit(Tag::context(3)).utc_time().unwrap().year, 2049);
    assert_eq!(r.implicit(Tag::context(4)).open_sequence(|r| r.u64()), Ok(5));
}

/// An ENUMERATED has the contents of an INTEGER, and another tag.
#[test]
fn enumerated_values() {
    assert_eq!(Reader::new(&[10, 1, 255]).enumerated(), Ok(-1));
    let error = Reader::new(&[2, 1, 5]).enumerated().unwrap_err();
    let kind = ErrorKind::UnexpectedTag {
        expected: Some(Tag::ENUMERATED),
        actual: Tag::INTEGER,
    };
    assert_eq!(error, Error::new(kind, 0));
    assert_eq!(
        Reader::new(&[10, 2, 0, 5]).enumerated().unwrap_err().reason(),
        Some(Reason::INTEGER_LEADING_ZEROES)
    );
}

#[test]
fn offsets_are_those_of_the_outermost_input() {
    let input = [0x30, 8, 0xa0, 6, 0x30, 4, 5, 0, 2, 0];
    let error = Reader::new(&input)
        .open_sequence(|r| {
            r.open_tagged(Tag::context(0), |r| {
                r.open_sequence(|r| Ok((r.null()?, r.u64()?)))
            })
        })
        .unwrap_err();
    assert_eq!(error.offset(), 8);
    assert_eq!(error.reason(), Some(Reason::INTEGER_EMPTY));
}

#[test]
fn indefinite_lengths_by_ber() {
    let input = [0x30, 0x80, 0xa0, 0x80, 2, 1, 5, 0, 0, 5, 0, 0, 0, 5, 0];
    let mut r = Reader::with_rules(&input, Rules::BER);
    let number = r.open_sequence(|r| {
        let number = r.open_tagged(Tag::context(0), |r| r.u64())?;
        r.null()?;
        Ok(number)
    });
    assert_eq!(number, Ok(5));
    assert_eq!(r.offset(), 13);
    r.null().unwrap();
    r.end().unwrap();
    assert!(Reader::new(&input).any().is_err());
}

#[test]
fn depth_is_bounded() {
    let input = [0xa0, 4, 0xa0, 2, 0x30, 0];
    let read = |depth| {
        Reader::with_rules(&input, Rules::DER.with_max_depth(depth)).open_tagged(Tag::context(0), |r| {
            r.open_tagged(Tag::context(0), |r| r.open_sequence(|_| Ok(())))
        })
    };
    assert!(read(2).is_err());
    assert_eq!(read(3), Ok(()));
}

#[test]
fn callers_refuse_by_themselves() {
    let read = Reader::new(&[0x30, 3, 2, 1, 9]).open_sequence(|r| match (r.offset(), r.u64()?) {
        (_, version @ 0..=2) => Ok(version),
        (offset, _) => Err(Error::new(ErrorKind::Other("unknown version"), offset)),
    });
    assert_eq!(read.unwrap_err().to_string(), "unknown version at offset 2");
}
