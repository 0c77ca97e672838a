//! Trees.
#![cfg(feature = "std")]
use dumarewhi::{Error, ErrorKind, Rules, Tag, Tree};

#[test]
fn children_and_descendants() {
    // SEQUENCE { SEQUENCE { 5, SET {} }, NULL }
    let input = [0x30, 0x09, 0x30, 0x05, 0x02, 0x01, 0x05, 0x31, 0x00, 0x05, 0x00];
    let tree = Tree::parse_der(&input).unwrap();
    let children: Vec<_> = tree.root().children().map(|node| node.tag()).collect();
    assert_eq!(children, [Tag::SEQUENCE, Tag::NULL]);
    let all: Vec<_> = tree
        .root()
        .descendants()
        .map(|node| (node.tag(), node.offset()))
        .collect();
    assert_eq!(
        all,
        [
            (Tag::SEQUENCE, 2),
            (Tag::INTEGER, 4),
            (Tag::SET, 7),
            (Tag::NULL, 9)
        ]
    );
    assert_eq!(tree.nodes().len(), 5);
    let inner = tree.root().children().next().unwrap();
    assert_eq!(inner.descendants().count(), 2);
    assert_eq!(
        (inner.header(), inner.content(), inner.octets()),
        (&input[2..4], &input[4..9], &input[2..9])
    );
    assert_eq!(tree.nodes().last().unwrap().children().count(), 0);
}

#[test]
fn values_outlive_the_tree() {
    let input = *b"\x0c\x02hi";
    let text = Tree::parse_der(&input).unwrap().root().as_str().unwrap();
    assert_eq!(text, "hi");
}

#[test]
fn memory_is_used_again() {
    let mut input = vec![0x30, 0x78];
    input.extend([5, 0].repeat(60));
    let (_, tree) = Rules::DER.parse(&input).unwrap();
    let places = tree.into_elements();
    let (start, capacity) = (places.as_ptr(), places.capacity());
    let (rest, tree) = Rules::DER.parse_with(&[2, 1, 5, 0xff], places).unwrap();
    assert_eq!((rest, tree.len(), tree.root().as_u64()), (&[0xff][..], 1, Ok(5)));
    let places = tree.into_elements();
    assert_eq!((places.as_ptr(), places.capacity()), (start, capacity));
}

/// What follows an element takes no memory, and a long string doesn't take much.
#[test]
fn memory_is_for_the_elements() {
    let mut input = vec![0x30, 0x06, 2, 1, 5, 2, 1, 7];
    input.resize(1 << 20, 0);
    let (_, tree) = Rules::DER.parse(&input).unwrap();
    assert_eq!(tree.len(), 3);
    assert!(tree.into_elements().capacity() < 8);
    let string = [&[4, 0x83, 0x0f, 0xff, 0xfb][..], &vec![0; 0x0f_fffb]].concat();
    assert!(Tree::parse_der(&string).unwrap().into_elements().capacity() <= 1 << 16);
}

/// A list of more elements than were expected is the same.
#[test]
fn lists_of_short_elements() {
    for count in [1, 40, 200_000usize] {
        let mut input = vec![0x30, 0x83];
        input.extend(&(2 * count as u32).to_be_bytes()[1..]);
        input.extend([5, 0].repeat(count));
        let tree = Tree::parse_ber(&input).unwrap();
        assert_eq!(
            tree.root().children().filter(|node| node.is_null()).count(),
            count
        );
    }
}

#[test]
fn content_of_a_tag_has_the_offsets_of_the_input() {
    // [1] { OCTET STRING that holds SEQUENCE { BOOLEAN } }
    let input = [0xa1, 0x07, 0x04, 0x05, 0x30, 0x03, 0x01, 0x01, 0xff];
    let tree = Tree::parse_der(&input).unwrap();
    let tags: Vec<_> = tree.nodes().map(|node| node.tag()).collect();
    assert_eq!(tags, [Tag::context(1), Tag::OCTET_STRING]);
    let octet_string = tree.root().parse_content().unwrap();
    assert_eq!(
        (octet_string.root().tag(), octet_string.root().offset()),
        (Tag::OCTET_STRING, 2)
    );
    let held = octet_string.root().parse_content().unwrap();
    let last = held.nodes().last().unwrap();
    assert_eq!((last.as_bool(), last.offset()), (Ok(true), 6));
}

/// No further input mends an element that runs past the content that it is in.
#[test]
fn content_that_is_cut_is_no_incomplete_input() {
    let input = [0x30, 0x05, 0x04, 0x03, 0x04, 0x05, 0x30];
    let tree = Tree::parse_der(&input).unwrap();
    let error = tree
        .root()
        .children()
        .next()
        .unwrap()
        .parse_content()
        .unwrap_err();
    assert!(matches!(error.kind(), ErrorKind::Overrun { missing } if missing > 0));
    assert!(!error.is_incomplete());
    assert_eq!(error.missing(), None);
    assert_eq!(error.offset(), 7);
}

#[test]
fn content_with_two_elements_is_no_tree() {
    let tree = Tree::parse_der(&[0xa1, 0x04, 0x05, 0x00, 0x05, 0x00]).unwrap();
    assert_eq!(
        tree.root().parse_content().unwrap_err(),
        Error::new(ErrorKind::TrailingData, 4)
    );
}

#[test]
fn errors_inside_a_tag_have_their_place() {
    let error = Tree::parse_der(&[0xa1, 0x05, 0x30, 0x03, 0x01, 0x01, 0x07]).unwrap_err();
    assert_eq!(error.offset(), 4);
    assert!(error.to_string().contains("a BOOLEAN is neither 00 nor ff"));
}

/// The depth of what is in a tag, or held by a string, is less than that around it.
#[test]
fn tags_count_as_depth() {
    let tagged = [0xa1, 0x02, 0x30, 0x00];
    assert!(Rules::DER.with_max_depth(1).parse(&tagged).is_err());
    assert!(Rules::DER.with_max_depth(2).parse(&tagged).is_ok());
    let held = [0x04, 0x02, 0x30, 0x00];
    let (_, tree) = Rules::DER.with_max_depth(1).parse(&held).unwrap();
    assert!(tree.root().parse_content().is_err());
    let (_, tree) = Rules::DER.with_max_depth(2).parse(&held).unwrap();
    assert!(tree.root().parse_content().is_ok());
}

#[test]
fn debug_and_display_name_the_parts() {
    let tree = Tree::parse_der(&[0x30, 0x02, 0x05, 0x00]).unwrap();
    let text = format!("{tree:?}");
    assert!(text.contains("Universal") && text.contains("16"), "{text}");
    let error = Error::new(
        ErrorKind::UnexpectedTag {
            expected: Some(Tag::NULL),
            actual: Tag::context(0),
        },
        3,
    );
    assert_eq!(
        error.to_string(),
        "unexpected tag (expected NULL, actual [0]) at offset 3"
    );
}
