//! Damaged inputs: no call panics, and each element lies within the input and within the one around it.
#![cfg(feature = "std")]
use dumarewhi::{check_ber, check_der, list_der, Any, Buffer, Element, Node, Reader, Result, Rules, Tree};
use shared::{damaged, Random};

mod shared;

const INPUTS: u64 = 40_000;

/// Elements of many types, of definite and indefinite length.
fn sound() -> Vec<Vec<u8>> {
    let leaves: &[&[u8]] = &[
        &[1, 1, 255],
        &[2, 2, 0x12, 0x34],
        &[3, 2, 4, 0xf0],
        &[4, 3, 1, 2, 3],
        &[5, 0],
        &[6, 9, 0x2a, 0x86, 0x48, 0x86, 0xf7, 0x0d, 1, 1, 5],
        &[10, 1, 3],
        &[12, 2, 0xc3, 0xa9],
        &[13, 3, 0x81, 0x34, 3],
        &[19, 2, b'O', b'K'],
        b"\x17\x0d200101000000Z",
        b"\x18\x1120200101000000.5Z",
        &[0x1e, 2, 0, 65],
        &[0xa0, 3, 2, 1, 2],
        &[0x9f, 0x22, 1, 0],
    ];
    let content = leaves.concat();
    let definite = |tag: u8, content: &[u8]| {
        let mut octets = vec![tag];
        match content.len() {
            0..=127 => octets.push(content.len() as u8),
            128..=255 => octets.extend([0x81, content.len() as u8]),
            length => octets.extend([0x82, (length >> 8) as u8, length as u8]),
        }
        octets.extend(content);
        octets
    };
    let indefinite = |tag: u8, content: &[u8]| [&[tag, 0x80], content, &[0, 0]].concat();
    let inner = definite(0x31, &content);
    vec![
        definite(0x30, &content),
        definite(0x30, &[&inner[..], &content, &inner].concat()),
        indefinite(0x30, &content),
        indefinite(
            0x30,
            &[&indefinite(0x31, &content)[..], &indefinite(0xa1, &inner), &inner].concat(),
        ),
        (0..40).fold(vec![5, 0], |it, _| definite(0x30, &it)),
        (0..30).fold(vec![5, 0], |it, _| indefinite(0x30, &it)),
    ]
}

fn noise(random: &mut Random) -> Vec<u8> {
    (0..random.below(40)).map(|_| random.octet()).collect()
}

/// Calls all that a value has.
fn visit(any: &Any<'_>) {
    let text = format!("{any:?} {}", any.tag());
    assert!(!text.is_empty());
    let _ = (
        any.as_bool(),
        any.as_i64(),
        any.as_u64(),
        any.as_str(),
        any.as_bytes(),
        any.is_null(),
    );
    if let Ok(oid) = any.as_oid() {
        let text = oid.to_string();
        // An arc of 2^128 or more has no digits.
        assert!(oid == text.as_str() || text.starts_with('#'));
        assert!(text.starts_with('#') || text.chars().all(|it| it == '.' || it.is_ascii_digit()));
    }
    if let Ok(bits) = any.as_bit_string() {
        assert_eq!(
            (bits.bit(bits.len()), bits.is_empty()),
            (None, bits.raw_bytes().is_empty())
        );
        assert_eq!(
            (0..bits.len()).filter(|at| bits.bit(*at).is_some()).count(),
            bits.len()
        );
    }
    if let Ok(time) = any.as_time() {
        assert!(
            (1..=12).contains(&time.month) && (1..=31).contains(&time.day),
            "{time}"
        );
        assert!(time.hour < 24 && time.minute < 60 && time.second < 60, "{time}");
    }
}

/// Each element lies in the one around it, after the one before it, and its octets are those of the input.
fn visit_nodes(input: &[u8], node: Node<'_, '_>, depth: usize) {
    assert!(depth <= dumarewhi::MAX_DEPTH);
    let any = node.any();
    visit(&any);
    assert_eq!(any.octets(), &input[any.offset()..][..any.octets().len()]);
    assert_eq!(
        any.octets().len() - any.header().len() - any.content().len(),
        marker(&any)
    );
    let mut at = any.content_offset();
    let mut inside = 0;
    for child in node.children() {
        assert_eq!(child.offset(), at);
        at += child.octets().len();
        inside += 1 + child.descendants().len();
        visit_nodes(input, child, depth + 1);
    }
    assert_eq!(inside, node.descendants().len());
    // The content of a constructed element of any class is elements (X.690 8.1.4).
    if node.is_constructed() {
        assert_eq!(at, any.content_offset() + any.content().len());
    } else {
        assert_eq!(inside, 0);
    }
    // What is listed already isn't read again: an inner element would be visited twice at each level.
    if inside == 0 {
        if let Ok(inner) = node.parse_content() {
            visit_nodes(input, inner.root(), depth + 1);
        }
    }
}

/// How many octets of an end marker follow the content.
fn marker(any: &Any<'_>) -> usize {
    match any.header().last() {
        Some(0x80) if any.octets().len() > any.header().len() + any.content().len() => 2,
        _ => 0,
    }
}

/// Reads all fields at any depth.
fn visit_fields(reader: &mut Reader<'_>) -> Result<usize> {
    let mut count = 0;
    while !reader.is_empty() {
        let offset = reader.offset();
        let any = reader.any()?;
        assert_eq!(any.offset(), offset);
        visit(&any);
        count += 1;
        if let Ok(mut inner) = any.reader() {
            count += visit_fields(&mut inner).unwrap_or(0);
        }
    }
    Ok(count)
}

fn visit_input(input: &[u8], random: &mut Random) -> [bool; 2] {
    let results = [Rules::DER, Rules::BER].map(|rules| visit_rules(rules, input, random));
    // X.690 10: an encoding by DER is one by BER.
    assert!(!results[0] || results[1], "{input:02x?}");
    let _ = (
        check_der(input),
        check_ber(input),
        Any::from_der(input),
        Any::from_ber(input),
    );
    results
}

/// Whether the input begins with an element.
fn visit_rules(rules: Rules, input: &[u8], random: &mut Random) -> bool {
    let checked = rules.check(input);
    let mut elements = vec![Element::default(); random.below(40)];
    assert_eq!(rules.list(input, &mut elements), checked);
    let parsed = rules.parse(input).map(|(rest, tree)| {
        assert_eq!(rest.len() + tree.root().octets().len(), input.len());
        let shown = elements.len().min(tree.len());
        assert_eq!(tree.elements()[..shown], elements[..shown]);
        assert!(tree.len() * 2 <= tree.root().octets().len());
        visit_nodes(input, tree.root(), 1);
        tree.len()
    });
    assert_eq!(parsed, checked.map(|found| found.elements));
    match (&checked, rules.first_length(input)) {
        (Ok(found), first) => assert_eq!(first, Ok(found.length)),
        (Err(error), first) if error.is_incomplete() => assert!(first.unwrap_err().is_incomplete()),
        (Err(error), _) => assert!(error.offset() <= input.len() && !error.to_string().is_empty()),
    }
    let _ = visit_fields(&mut Reader::with_rules(input, rules));
    checked.is_ok()
}

#[test]
fn damaged_inputs_never_panic() {
    let sound = sound();
    let mut random = Random(0x9e37_79b9_7f4a_7c15);
    let mut read = [0, 0];
    for _ in 0..INPUTS {
        let input = match random.below(4) {
            0 => noise(&mut random),
            _ => damaged(&sound[random.below(sound.len())], &mut random),
        };
        let results = visit_input(&input, &mut random);
        (0..2).for_each(|at| read[at] += u32::from(results[at]));
    }
    // A generator of which nothing or all is read would test little.
    assert!(
        read.iter()
            .all(|count| (1000..INPUTS as u32 - 1000).contains(count)),
        "{read:?}"
    );
}

#[test]
fn sound_inputs_are_read() {
    let mut random = Random(1);
    let results: Vec<_> = sound()
        .iter()
        .map(|input| visit_input(input, &mut random))
        .collect();
    let expected = [
        [true, true],
        [true, true],
        [false, true],
        [false, true],
        [true, true],
        [false, true],
    ];
    assert_eq!(results, expected);
}

/// Pieces of any size give the same elements as the whole input.
#[test]
fn damaged_streams_are_read_alike() {
    let sound = sound();
    let mut random = Random(7);
    for _ in 0..INPUTS / 20 {
        let inputs: Vec<_> = (0..3)
            .map(|_| damaged(&sound[random.below(sound.len())], &mut random))
            .collect();
        let input = inputs.concat();
        let rules = [Rules::DER, Rules::BER][random.below(2)];
        let (mut buffer, mut taken, mut at) = (Buffer::new(rules), 0, 0);
        'pieces: while at < input.len() {
            let end = (at + 1 + random.below(200)).min(input.len());
            buffer.feed(&input[at..end]);
            at = end;
            loop {
                match buffer.next_octets() {
                    Ok(Some(octets)) => taken += octets.len(),
                    Ok(None) => break,
                    Err(error) => {
                        assert!(!error.is_incomplete());
                        break 'pieces;
                    }
                }
            }
        }
        assert_eq!(buffer.position(), taken as u64);
        let mut whole = 0;
        while let Ok(length) = rules.first_length(&input[whole..]) {
            whole += length;
        }
        assert_eq!(taken, whole);
    }
}

#[test]
fn buffers_keep_what_has_no_room() {
    let input = &sound()[1];
    let count = check_der(input).unwrap();
    let mut elements = vec![Element::default(); count];
    list_der(input, &mut elements).unwrap();
    assert_eq!(Tree::parse_der(input).unwrap().into_elements(), elements);
}
