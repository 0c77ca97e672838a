//! Input in pieces.
#![cfg(feature = "std")]
use dumarewhi::{Buffer, ErrorKind, Rules};

/// Three elements: a SEQUENCE with 300 octets, a NULL, and a tag with a long number.
fn der() -> Vec<u8> {
    let mut input = vec![0x30, 0x82, 0x01, 0x2c, 0x04, 0x82, 0x01, 0x28];
    input.extend([7; 296]);
    input.extend([5, 0, 0x9f, 0xa2, 0x22, 1, 0]);
    input
}

/// A SEQUENCE of indefinite length, in which another one is, and a NULL.
const BER: &[u8] = &[0x30, 0x80, 0x24, 0x80, 4, 1, 9, 0, 0, 5, 0, 0, 0, 5, 0];

/// Feeds the input in pieces of this size. Returns where each element began, and how many octets were fed
/// when it came.
fn taken(rules: Rules, input: &[u8], size: usize) -> Vec<(u64, usize)> {
    let mut buffer = Buffer::new(rules);
    let (mut places, mut fed) = (Vec::new(), 0);
    for piece in input.chunks(size) {
        buffer.feed(piece);
        fed += piece.len();
        loop {
            let place = buffer.position();
            match buffer.next_tree().unwrap() {
                Some(tree) => {
                    let octets = tree.root().octets();
                    assert_eq!(octets, &input[place as usize..][..octets.len()]);
                    places.push((place, fed));
                }
                None => break,
            }
        }
        let most = input.len() - fed;
        assert!(buffer.missing() <= most.max(1), "{} of {most}", buffer.missing());
    }
    buffer.finish().unwrap();
    assert_eq!(buffer.position(), input.len() as u64);
    places
}

/// The first count of octets that has the end of an element, if they come in pieces.
fn fed_at(end: usize, size: usize, length: usize) -> usize {
    (end + size - 1) / size * size.min(length).max(1)
}

#[test]
fn elements_come_as_soon_as_they_are_whole() {
    let der = der();
    for (rules, input, ends) in [
        (Rules::DER, &der[..], &[304, 306, 311][..]),
        (Rules::BER, &der[..], &[304, 306, 311]),
        (Rules::BER, BER, &[13, 15]),
    ] {
        for size in 1..=input.len() {
            let starts = [0].into_iter().chain(ends.iter().copied());
            let expected: Vec<_> = starts
                .zip(ends)
                .map(|(start, end)| (start as u64, fed_at(*end, size, input.len()).min(input.len())))
                .collect();
            assert_eq!(taken(rules, input, size), expected, "pieces of {size}");
        }
    }
}

#[test]
fn missing_octets_are_counted() {
    let mut buffer = Buffer::new(Rules::DER);
    assert_eq!(buffer.missing(), 1);
    for (octet, missing) in [(0x30, 1), (0x82, 2), (0x01, 1), (0x2c, 300), (0x04, 299)] {
        buffer.feed(&[octet]);
        assert!(buffer.next_octets().unwrap().is_none());
        assert_eq!(buffer.missing(), missing);
    }
}

#[test]
fn the_end_of_the_input_shows_what_is_cut() {
    let mut buffer = Buffer::new(Rules::DER);
    buffer.finish().unwrap();
    buffer.feed(&[5, 0, 4]);
    buffer.next_tree().unwrap().unwrap();
    assert!(buffer.next_tree().unwrap().is_none());
    let error = buffer.finish().unwrap_err();
    assert!(error.is_incomplete());
    buffer.feed(&[1, 9]);
    assert_eq!(buffer.finish().unwrap_err().kind(), ErrorKind::TrailingData);
    assert_eq!(
        buffer.next_tree().unwrap().unwrap().root().as_bytes(),
        Ok(&[9][..])
    );
    buffer.finish().unwrap();
}

/// A header that breaks a rule isn't mended by more input, and isn't left out.
#[test]
fn errors_of_framing_stay() {
    let mut buffer = Buffer::new(Rules::DER);
    buffer.feed(&[5, 0, 0x30, 0x80]);
    buffer.next_tree().unwrap().unwrap();
    for _ in 0..3 {
        let error = buffer.next_tree().unwrap_err();
        assert!(error.to_string().contains("indefinite length"), "{error}");
        buffer.feed(&[5, 0]);
    }
    assert!(buffer.finish().is_err());
    assert_eq!(buffer.position(), 2);
}

/// After an element that breaks a rule inside, the next one is known.
#[test]
fn errors_inside_an_element_are_passed_over() {
    let mut buffer = Buffer::new(Rules::DER);
    buffer.feed(&[0x30, 3, 1, 1, 7, 5, 0]);
    let error = buffer.next_tree().unwrap_err();
    assert_eq!(error.offset(), 2);
    assert!(buffer.next_tree().unwrap().unwrap().root().is_null());
    assert!(buffer.next_tree().unwrap().is_none());
}

#[test]
fn limits_are_to_the_octet() {
    let mut long = Buffer::new(Rules::DER).with_limit(5);
    long.feed(&[4, 3]);
    assert!(long.next_octets().unwrap().is_none());
    long.feed(&[1, 2, 3, 4, 4]);
    assert_eq!(long.next_octets().unwrap(), Some(&[4, 3, 1, 2, 3][..]));
    assert_eq!(
        long.next_octets().unwrap_err().kind(),
        ErrorKind::TooLong { limit: 5 }
    );
    let mut whole = Buffer::new(Rules::DER).with_limit(5);
    whole.feed(&[4, 4, 1, 2, 3, 4]);
    assert_eq!(
        whole.next_octets().unwrap_err().kind(),
        ErrorKind::TooLong { limit: 5 }
    );
}

#[test]
fn taken_octets_are_dropped() {
    let mut buffer = Buffer::new(Rules::DER);
    for _ in 0..10_000 {
        buffer.feed(&[4, 3, 1, 2, 3]);
        buffer.next_octets().unwrap().unwrap();
        assert!(buffer.pending().is_empty());
    }
    assert_eq!(buffer.position(), 50_000);
    assert!(format!("{buffer:?}").len() < 300);
}
