//! Lists in buffers of any room.
use dumarewhi::{list_ber, list_der, Element, Rules};

/// A SEQUENCE of a SEQUENCE of two INTEGERs, a NULL, and [0] with a BOOLEAN.
const DER: &[u8] = &[
    0x30, 0x0f, 0x30, 0x06, 0x02, 0x01, 0x05, 0x02, 0x01, 0x07, 0x05, 0x00, 0xa0, 0x03, 0x01, 0x01, 0xff,
];

/// The same with indefinite lengths.
const BER: &[u8] = &[
    0x30, 0x80, 0x30, 0x80, 0x02, 0x01, 0x05, 0x02, 0x01, 0x07, 0x00, 0x00, 0x05, 0x00, 0xa0, 0x80, 0x01,
    0x01, 0xff, 0x00, 0x00, 0x00, 0x00,
];

#[test]
fn each_room_has_the_first_elements() {
    for (rules, input) in [(Rules::DER, DER), (Rules::BER, DER), (Rules::BER, BER)] {
        let count = rules.check(input).unwrap().elements;
        assert_eq!(count, 7);
        let mut whole = vec![Element::default(); count];
        assert_eq!(rules.list(input, &mut whole).unwrap().elements, count);
        for room in 0..=count + 2 {
            let mut elements = vec![Element::default(); room];
            let found = rules.list(input, &mut elements).unwrap();
            assert_eq!((found.elements, found.length), (count, input.len()));
            let written = room.min(count);
            assert_eq!(elements[..written], whole[..written], "room {room}");
            assert!(elements[written..]
                .iter()
                .all(|element| *element == Element::default()));
        }
    }
}

#[test]
fn places_of_definite_lengths() {
    let mut elements = [Element::default(); 7];
    list_der(DER, &mut elements).unwrap();
    let ranges = elements.map(|it| (it.range(), it.content_range(), it.descendants()));
    let expected = [
        (0..17, 2..17, 6),
        (2..10, 4..10, 2),
        (4..7, 6..7, 0),
        (7..10, 9..10, 0),
        (10..12, 12..12, 0),
        (12..17, 14..17, 1),
        (14..17, 16..17, 0),
    ];
    assert_eq!(ranges, expected);
    assert!(elements.iter().all(Element::is_definite));
}

#[test]
fn places_of_indefinite_lengths() {
    let mut elements = [Element::default(); 7];
    list_ber(BER, &mut elements).unwrap();
    let ranges = elements.map(|it| (it.range(), it.content_range(), it.descendants()));
    let expected = [
        (0..23, 2..21, 6),
        (2..12, 4..10, 2),
        (4..7, 6..7, 0),
        (7..10, 9..10, 0),
        (12..14, 14..14, 0),
        (14..21, 16..19, 1),
        (16..19, 18..19, 0),
    ];
    assert_eq!(ranges, expected);
    assert_eq!(
        elements.map(|it| it.is_definite()),
        [false, false, true, true, true, false, true]
    );
}

/// Room is counted as elements, also beyond what a tree guesses.
#[cfg(feature = "alloc")]
#[test]
fn many_small_elements() {
    let mut input = vec![0x30, 0x82, 0x4e, 0x20];
    input.extend([5, 0].repeat(10_000));
    assert_eq!(
        (dumarewhi::check_der(&input), dumarewhi::check_ber(&input)),
        (Ok(10_001), Ok(10_001))
    );
    let tree = dumarewhi::Tree::parse_der(&input).unwrap();
    assert_eq!((tree.len(), tree.root().children().count()), (10_001, 10_000));
    assert!(tree.root().children().all(|node| node.is_null()));
    assert_eq!(tree.nodes().last().unwrap().offset(), input.len() - 2);
}

#[test]
fn content_of_another_input_is_checked() {
    let mut elements = [Element::default(); 6];
    list_der(DER, &mut elements).unwrap();
    assert_eq!(elements[5].content(DER), Some(&DER[14..]));
    assert_eq!(elements[5].content(&DER[..16]), None);
    assert_eq!(Element::default().content(&[]), Some(&[][..]));
}
