//! Inputs whose outcomes X.690 gives, by DER and by BER: the clause that decides is named first.
use dumarewhi::{check_ber, check_der, Error, ErrorKind, Reason, Rules};

/// What a row expects.
#[derive(Clone, Copy)]
enum Expected {
    /// This many elements, and this many octets.
    Ok(usize, usize),
    /// An error with this text at this place.
    Error(&'static str, usize),
    /// More octets may complete it.
    Incomplete,
}

use Expected::{Error as E, Incomplete as I, Ok as O};

struct Row {
    /// The clause that decides.
    clause: &'static str,
    input: &'static str,
    der: Expected,
    ber: Expected,
}

const fn row(clause: &'static str, input: &'static str, der: Expected, ber: Expected) -> Row {
    Row {
        clause,
        input,
        der,
        ber,
    }
}

const NOT_MINIMAL: &str = "length not minimal";
const INDEFINITE: &str = "indefinite length";
const PRIMITIVE: &str = "primitive encoding expected";
const CONSTRUCTED: &str = "constructed encoding expected";
const STRING: &str = "DER constraint failed: constructed";
const OVERRUN: &str = "item runs past the end of its container";
const OUTSIDE: &str = "outside of the character set";
const NO_ELEMENT: &str = "end-of-contents octets, and no indefinite length ends here";

#[rustfmt::skip]
const ROWS: &[Row] = &[
    // Identifier octets.
    row("8.1.2.4", "9f a2 22 01 00", O(1, 5), O(1, 5)),
    row("8.1.2.4.2", "1f 1e 00", E("invalid tag", 0), E("invalid tag", 0)),
    row("8.1.2.4.2", "9f 80 22 01 00", E("invalid tag", 0), E("invalid tag", 0)),
    row("8.1.2.4.2", "9f a2 a2 a2 a2 a2 22 01 00", E("invalid tag", 0), E("invalid tag", 0)),
    row("8.1.2.4.2", "9f a2", I, I),
    row("8.1.2", "", I, I),
    // Length octets.
    row("8.1.3.4", "30", I, I),
    row("8.1.3.5", "02 85", I, I),
    row("8.1.3.5", "02 85 ff", I, I),
    row("8.1.3.5", "02 ff 00", E("invalid length", 0), E("invalid length", 0)),
    row("8.1.3.5", "02 8a ff ff ff ff ff ff ff ff ff ff 00", E("invalid length", 0), E("invalid length", 0)),
    row("10.1", "02 81 01 05", E(NOT_MINIMAL, 0), O(1, 4)),
    row("10.1", "04 82 00 01 61", E(NOT_MINIMAL, 0), O(1, 5)),
    row("10.1", "04 80", E(INDEFINITE, 0), E(CONSTRUCTED, 0)),
    row("10.1", "30 80 04 03 56 78 90 00 00", E(INDEFINITE, 0), O(2, 9)),
    row("8.1.3.6", "30 80 80 00 00 00", E(INDEFINITE, 0), O(2, 6)),
    row("8.1.3.6", "24 80 04 01 61 00 00", E(INDEFINITE, 0), O(2, 7)),
    row("8.1.3.6", "30 80", E(INDEFINITE, 0), I),
    row("8.1.3.6", "30 80 04 01 61 00", E(INDEFINITE, 0), I),
    row("8.1.3.6", "30 04 30 80 05 00", E(INDEFINITE, 2), E("no end-of-contents octets", 2)),
    row("8.3.1", "30 04 30 80 02 00", E(INDEFINITE, 2), E("a number has no octets", 4)),
    row("8.1.3.2", "02 80", E(INDEFINITE, 0), E(CONSTRUCTED, 0)),
    // End-of-contents octets are no element, and universal 0 has no other.
    row("8.1.5", "00 00", E(NO_ELEMENT, 0), E(NO_ELEMENT, 0)),
    row("8.1.5", "30 02 00 00", E(NO_ELEMENT, 2), E(NO_ELEMENT, 2)),
    row("8.1.5", "30 80 00 81 00 00 00", E(INDEFINITE, 0), E(NO_ELEMENT, 2)),
    // What follows the element is left.
    row("8.1.1", "02 01 05 05 00", O(1, 3), O(1, 3)),
    row("8.1.1", "02 02 00", I, I),
    // Lists.
    row("8.9", "30 00", O(1, 2), O(1, 2)),
    row("8.9.1", "10 00", E("a SEQUENCE is primitive", 0), E("a SEQUENCE is primitive", 0)),
    row("8.11.1", "11 00", E("a SET is primitive", 0), E("a SET is primitive", 0)),
    row("8.9", "30 0a 02 03 01 00 01 02 03 01 00 00", O(3, 12), O(3, 12)),
    row("8.9.3", "30 0a 16 05 53 6d 69 74 68 01 01 ff", O(3, 12), O(3, 12)),
    row("8.11", "31 05 30 03 01 01 00", O(3, 7), O(3, 7)),
    row("8.1.3", "30 04 02 03 01 00", E(OVERRUN, 2), E(OVERRUN, 2)),
    // The content of a constructed element of any class is elements.
    row("8.1.4", "a0 03 02 01 05", O(2, 5), O(2, 5)),
    row("8.1.4", "a0 03 02 02 05", E(OVERRUN, 2), E(OVERRUN, 2)),
    row("8.1.4", "a0 05 30 03 01 01 7f", E("neither 00 nor ff", 4), O(3, 7)),
    // Values.
    row("8.2.1", "01 02 00 00", E("a BOOLEAN isn't one octet", 0), E("a BOOLEAN isn't one octet", 0)),
    row("8.2.1", "01 00", E("a BOOLEAN isn't one octet", 0), E("a BOOLEAN isn't one octet", 0)),
    row("8.2.1", "21 01 ff", E(PRIMITIVE, 0), E(PRIMITIVE, 0)),
    row("11.1", "01 01 7f", E("neither 00 nor ff", 0), O(1, 3)),
    row("11.1", "30 03 01 01 7f", E("neither 00 nor ff", 2), O(2, 5)),
    row("8.3.1", "02 00", E("a number has no octets", 0), E("a number has no octets", 0)),
    row("8.3.2", "02 02 00 7f", E("first nine bits", 0), E("first nine bits", 0)),
    row("8.3.2", "02 02 ff 80", E("first nine bits", 0), E("first nine bits", 0)),
    row("8.3.2", "02 02 00 80", O(1, 4), O(1, 4)),
    row("8.3.2", "02 02 ff 7f", O(1, 4), O(1, 4)),
    row("8.3.1", "22 03 02 01 05", E(PRIMITIVE, 0), E(PRIMITIVE, 0)),
    row("8.4", "0a 01 05", O(1, 3), O(1, 3)),
    row("8.4", "0a 01 80", O(1, 3), O(1, 3)),
    row("8.4", "0a 02 00 05", E("first nine bits", 0), E("first nine bits", 0)),
    row("8.4", "0a 09 01 00 00 00 00 00 00 00 00", O(1, 11), O(1, 11)),
    row("8.5.9", "09 01 43", O(1, 3), O(1, 3)),
    row("8.5.9", "09 01 44", E("a special value of a REAL", 0), E("a special value of a REAL", 0)),
    row("8.6.2", "03 00", E("a BIT STRING has no octets", 0), E("a BIT STRING has no octets", 0)),
    row("11.2.1", "03 02 00 80", O(1, 4), O(1, 4)),
    row("11.2.1", "03 02 07 80", O(1, 4), O(1, 4)),
    row("11.2.1", "03 02 07 81", E("an unused bit isn't 0", 0), O(1, 4)),
    row("8.6.2.3", "03 01 03", E("without bits has unused ones", 0), E("without bits has unused ones", 0)),
    row("8.6.2.2", "03 02 08 00", E("more than seven bits", 0), E("more than seven bits", 0)),
    row("10.2", "24 03 04 01 61", E(STRING, 0), O(2, 5)),
    row("8.8.2", "05 00", O(1, 2), O(1, 2)),
    row("8.8.2", "05 01 00", E("a NULL has octets", 0), E("a NULL has octets", 0)),
    row("8.18.1", "08 00", E("an EXTERNAL is primitive", 0), E("an EXTERNAL is primitive", 0)),
    row("8.19", "06 03 55 04 03", O(1, 5), O(1, 5)),
    row("8.19.1", "26 05 06 03 55 04 03", E(PRIMITIVE, 0), E(PRIMITIVE, 0)),
    row("8.19.2", "06 00", E("an identifier has no octets", 0), E("an identifier has no octets", 0)),
    row("8.19.2", "06 01 ff", E("the last arc has no end", 0), E("the last arc has no end", 0)),
    row("8.19.2", "06 01 80", E("the last arc has no end", 0), E("the last arc has no end", 0)),
    row("8.19.2", "06 03 55 04 83", E("the last arc has no end", 0), E("the last arc has no end", 0)),
    row("8.19.2", "06 03 80 55 04", E("an arc begins with 80", 0), E("an arc begins with 80", 0)),
    row("8.20", "0d 04 c2 7b 03 02", O(1, 6), O(1, 6)),
    row("8.20.2", "0d 00", E("an identifier has no octets", 0), E("an identifier has no octets", 0)),
    row("8.23", "0c 02 c3 a9", O(1, 4), O(1, 4)),
    row("8.23.10", "0c 01 ff", E("a text isn't UTF-8", 0), E("a text isn't UTF-8", 0)),
    row("8.23", "12 04 01 02 03 04", E(OUTSIDE, 0), E(OUTSIDE, 0)),
    row("8.23", "13 01 2a", E(OUTSIDE, 0), E(OUTSIDE, 0)),
    row("8.23", "16 01 80", E(OUTSIDE, 0), E(OUTSIDE, 0)),
    row("8.23", "1a 01 0a", E(OUTSIDE, 0), E(OUTSIDE, 0)),
    row("8.23.5", "14 01 e9", O(1, 3), O(1, 3)),
    row("8.23.7", "1c 04 00 00 00 41", O(1, 6), O(1, 6)),
    row("8.23.7", "1c 03 00 00 00", E("groups of four octets", 0), E("groups of four octets", 0)),
    row("8.23.9", "1e 04 00 4c 00 65", O(1, 6), O(1, 6)),
    row("8.23.9", "1e 04 d8 00 00 41", O(1, 6), O(1, 6)),
    row("8.23.9", "1e 03 00 41 00", E("a BMPString isn't pairs", 0), E("a BMPString isn't pairs", 0)),
    // "200101000000Z", "2001010000Z", "201301000000Z", "161231235960Z"
    row("11.8", "17 0d 32 30 30 31 30 31 30 30 30 30 30 30 5a", O(1, 15), O(1, 15)),
    row("11.8.2", "17 0b 32 30 30 31 30 31 30 30 30 30 5a", E("a time has no seconds", 0), O(1, 13)),
    row("8.25", "17 0d 32 30 31 33 30 31 30 30 30 30 30 30 5a", E("isn't a text of its type", 0), E("isn't a text of its type", 0)),
    row("X.680 47.3", "17 0d 31 36 31 32 33 31 32 33 35 39 36 30 5a", E("isn't a text of its type", 0), E("isn't a text of its type", 0)),
    // "200101000000-0000"
    row("11.8.1", "17 11 32 30 30 31 30 31 30 30 30 30 30 30 2d 30 30 30 30", E("a time doesn't end in Z", 0), O(1, 19)),
    // "20200101000000.5Z", "20200101000000.0Z", "20200101000000,5Z"
    row("11.7.3", "18 11 32 30 32 30 30 31 30 31 30 30 30 30 30 30 2e 35 5a", O(1, 19), O(1, 19)),
    row("11.7.3", "18 11 32 30 32 30 30 31 30 31 30 30 30 30 30 30 2e 30 5a", E("a fraction ends in 0", 0), O(1, 19)),
    row("11.7.4", "18 11 32 30 32 30 30 31 30 31 30 30 30 30 30 30 2c 35 5a", E("a fraction has a comma", 0), O(1, 19)),
];

fn octets(hex: &str) -> Vec<u8> {
    hex.split_whitespace()
        .map(|pair| u8::from_str_radix(pair, 16).unwrap())
        .collect()
}

fn compare(row: &Row, rules: Rules, expected: Expected) {
    let input = octets(row.input);
    let actual = rules.check(&input);
    let name = format!(
        "{} ({}) by {}",
        row.input,
        row.clause,
        if rules.is_der() { "DER" } else { "BER" }
    );
    match (expected, actual) {
        (O(elements, length), Ok(found)) => {
            assert_eq!((found.elements, found.length), (elements, length), "{name}");
        }
        (E(text, place), Err(error)) => {
            assert!(matches!(error.kind(), ErrorKind::Malformed(_)), "{name}: {error}");
            assert!(error.to_string().contains(text), "{name}: {error}");
            assert_eq!(error.offset(), place, "{name}: {error}");
        }
        (I, Err(error)) => {
            assert!(error.is_incomplete(), "{name}: {error}");
            assert!(error.missing() > Some(0), "{name}: {error}");
            assert_eq!(error.offset(), input.len(), "{name}");
        }
        (_, actual) => panic!("{name}: {actual:?}"),
    }
}

#[test]
fn rows_by_der() {
    ROWS.iter().for_each(|row| compare(row, Rules::DER, row.der));
}

#[test]
fn rows_by_ber() {
    ROWS.iter().for_each(|row| compare(row, Rules::BER, row.ber));
}

/// Octets that are appended change no error, and are left by an element.
#[test]
fn appended_octets_change_nothing() {
    for row in ROWS {
        for (rules, expected) in [(Rules::DER, row.der), (Rules::BER, row.ber)] {
            let input = octets(row.input);
            let longer = [&input[..], &[0x05, 0x00, 0xff]].concat();
            if !matches!(expected, I) {
                assert_eq!(rules.check(&longer), rules.check(&input), "{}", row.input);
            }
        }
    }
}

/// Each proper front of an element is cut short.
#[test]
fn fronts_are_incomplete() {
    for row in ROWS {
        for (rules, expected) in [(Rules::DER, row.der), (Rules::BER, row.ber)] {
            if let O(_, length) = expected {
                let input = octets(row.input);
                for end in 0..length {
                    let error = rules.check(&input[..end]).unwrap_err();
                    assert!(error.is_incomplete(), "{} to {end}: {error}", row.input);
                }
            }
        }
    }
}

/// No end limits a length (8.1.3), up to 2^64-1: all content octets are missing.
#[test]
fn missing_octets_of_long_lengths() {
    for (input, missing) in [
        ("02 88 ff ff ff ff ff ff ff f6", usize::MAX - 9),
        ("02 88 ff ff ff ff ff ff ff f5", usize::MAX - 10),
        ("02 88 ff ff ff ff ff ff ff ff", usize::MAX),
        ("30 88 ff ff ff ff ff ff ff f5", usize::MAX - 10),
    ] {
        let expected = Error::new(ErrorKind::Incomplete { missing }, 10);
        for rules in [Rules::DER, Rules::BER] {
            assert_eq!(rules.check(&octets(input)), Err(expected), "{input}");
            assert_eq!(rules.first_length(&octets(input)), Err(expected), "{input}");
        }
    }
}

/// An outermost indefinite length says no more than its end marker (8.1.3.6), so not how long the inner list is.
#[test]
fn missing_octets_of_indefinite_lengths() {
    let expected = Error::new(ErrorKind::Incomplete { missing: 2 }, 4);
    assert_eq!(Rules::BER.check(&octets("30 80 30 05")), Err(expected));
}

#[test]
fn depth_is_bounded() {
    let input = octets("31 05 30 03 01 01 00");
    for rules in [Rules::DER, Rules::BER] {
        assert_eq!(rules.with_max_depth(3).check(&input).unwrap().elements, 3);
        let error = rules.with_max_depth(2).check(&input).unwrap_err();
        assert!(error.to_string().contains("maximum depth reached"), "{error}");
        assert_eq!(error.offset(), 4);
        let error = rules.with_max_depth(0).check(&input).unwrap_err();
        assert_eq!(error.offset(), 0);
    }
}

/// SEQUENCE in SEQUENCE, `levels` of them.
fn nested(levels: usize) -> Vec<u8> {
    (0..levels).fold(Vec::new(), |inner, _| {
        let length = match inner.len() {
            0..=127 => vec![inner.len() as u8],
            128..=255 => vec![0x81, inner.len() as u8],
            _ => vec![0x82, (inner.len() >> 8) as u8, inner.len() as u8],
        };
        [vec![0x30], length, inner].concat()
    })
}

#[test]
fn greater_depths_are_taken_as_the_greatest() {
    let deepest = dumarewhi::MAX_DEPTH;
    for rules in [Rules::DER, Rules::BER] {
        let unbounded = rules.with_max_depth(usize::MAX);
        for rules in [rules, unbounded] {
            assert_eq!(rules.check(&nested(deepest)).unwrap().elements, deepest);
            assert!(rules.check(&nested(deepest + 1)).is_err());
        }
    }
}

/// Indefinite lengths are as deep as definite ones. 49 of them are framed inside one another.
#[test]
fn indefinite_lengths_are_bounded() {
    let input = |levels: usize| [[0x30, 0x80].repeat(levels), [0, 0].repeat(levels)].concat();
    let deepest = dumarewhi::MAX_DEPTH;
    assert_eq!(check_ber(&input(deepest)), Ok(deepest));
    let too_deep = check_ber(&input(deepest + 1)).unwrap_err();
    assert_eq!(
        too_deep,
        Error::new(ErrorKind::Malformed(Reason::MAX_DEPTH), 2 * deepest)
    );
    assert_eq!(Rules::BER.first_length(&input(49)), Ok(4 * 49));
    let unframed = Rules::BER.first_length(&input(50)).unwrap_err();
    assert_eq!(unframed.kind(), ErrorKind::Malformed(Reason::MAX_DEPTH));
}

#[test]
fn trailing_octets_are_an_error() {
    let expected = Err(Error::new(ErrorKind::TrailingData, 2));
    assert_eq!(check_der(&[5, 0, 1]), expected);
    assert_eq!(check_ber(&[5, 0, 1]), expected);
}
