//! Fields: the rows of the library's tests of a cursor, and beside a tree.
#![cfg(feature = "std")]
use dumarewhi::{Any, Class, Error, ErrorKind, Node, Reader, Reason, Result, Rules, Tag, Time, Tree, Zone};

fn spaced(octets: &[u8]) -> String {
    let pairs: Vec<_> = octets.iter().map(|octet| format!("{octet:02x}")).collect();
    pairs.join(" ")
}

fn shown(time: Time) -> String {
    let date = format!("{:04}{:02}{:02}", time.year, time.month, time.day);
    let zone = if time.zone == Zone::Utc { "Z" } else { "" };
    format!("{date}{:02}{:02}{:02}{zone}", time.hour, time.minute, time.second)
}

/// What a call of the rows reads, as they have it. `None` for a call that there isn't here.
fn read(call: &str, r: &mut Reader<'_>) -> Option<Result<String>> {
    Some(match call {
        "boolean" => r.boolean().map(|it| it.to_string()),
        "integer" => r.integer().map(|it| spaced(it.as_bytes())),
        "u32" => r.value::<u32>().map(|it| it.to_string()),
        "i32" => r.value::<i32>().map(|it| it.to_string()),
        "u64" => r.u64().map(|it| it.to_string()),
        "i64" => r.i64().map(|it| it.to_string()),
        "bits" => r
            .bits()
            .map(|it| format!("{} {}", it.unused_bits(), spaced(it.raw_bytes()))),
        "octets" => r.octets().map(spaced),
        "null" => r.null().map(|()| String::from("NULL")),
        "oid" => r.oid().map(|it| match it.to_string() {
            digits if digits.starts_with('#') => format!("[{}]", spaced(it.as_bytes())),
            text => text,
        }),
        "utf8_string" => r.utf8_string().map(String::from),
        "printable_string" => r.printable_string().map(String::from),
        "ia5_string" => r.ia5_string().map(String::from),
        "general_string" => r.any_text().map(String::from),
        "utc_time" => r.utc_time().map(shown),
        "generalized_time" => r.generalized_time().map(shown),
        "time" => r.time().map(shown),
        "any" => r
            .any()
            .map(|it| format!("{} {}", it.tag().number, spaced(it.content()))),
        _ => return None,
    })
}

/// As rows have it, to the values of an error that follow its text.
fn text_of(error: Error) -> String {
    let text = match error.kind() {
        ErrorKind::Incomplete { missing } => format!("the input is cut short, needs {missing}"),
        ErrorKind::UnexpectedTag { actual, .. } => match actual.class {
            Class::Universal => String::from("unexpected tag"),
            _ => String::from("unexpected class"),
        },
        ErrorKind::PrimitiveExpected(_) => String::from("primitive encoding expected"),
        kind => kind.to_string(),
    };
    format!("at {}: {text}", error.offset())
}

#[test]
fn rows() {
    let path = format!(
        "{}/../../tests/rows/data/cursor/values.rows",
        env!("CARGO_MANIFEST_DIR")
    );
    let text = std::fs::read_to_string(path).unwrap();
    let (mut rules, mut call, mut count) = (Rules::DER, "", 0);
    for line in text.lines().filter(|line| !line.starts_with('#')) {
        if let Some(words) = line.strip_prefix('[') {
            let (word, name) = words.trim_end_matches(']').split_once(' ').unwrap();
            rules = if word == "BER" { Rules::BER } else { Rules::DER };
            call = name;
        }
        let parts: Vec<_> = line.split('|').map(str::trim).collect();
        let [input, expected] = match parts[..] {
            [input, expected, ..] => [input, expected],
            _ => continue,
        };
        let pairs = input.split_whitespace();
        let octets: Vec<_> = pairs.map(|pair| u8::from_str_radix(pair, 16).unwrap()).collect();
        let mut reader = Reader::with_rules(&octets, rules);
        // Of the rows of a number by BER these two have needless octets, which der-parser takes (X.690 8.3.2).
        let needless = matches!(octets[..], [2, 2, 0, 0x7f] | [2, 6, 0, 0, ..]) && !rules.is_der();
        match read(call, &mut reader) {
            Some(Err(error)) if needless => {
                assert_eq!(error.reason(), Some(Reason::INTEGER_LEADING_ZEROES));
            }
            Some(Ok(found)) => {
                assert_eq!(found, expected, "{call} {input}");
                assert_eq!((reader.offset(), reader.is_empty()), (octets.len(), true));
                assert_eq!(reader.end(), Ok(()));
            }
            Some(Err(error)) => {
                let text = text_of(error);
                assert!(
                    expected.starts_with(&text),
                    "{call} {input}: {text}, and not {expected}"
                );
                assert_eq!((reader.offset(), reader.remaining()), (0, &octets[..]));
            }
            None => continue,
        }
        count += 1;
    }
    assert!(count > 50);
}

/// SEQUENCE { a INTEGER, b SET { OCTET STRING, NULL }, c [1] EXPLICIT OBJECT IDENTIFIER, d [2] IMPLICIT IA5String }
const FIELDS: &[u8] =
    b"\x30\x16\x02\x01\x05\x31\x05\x04\x01\x61\x05\x00\xa1\x05\x06\x03\x55\x04\x03\x82\x03a.b";

type Fields = (u64, Vec<u8>, String, String);

fn fields(input: &[u8]) -> Result<Fields> {
    let mut reader = Reader::new(input);
    let found = reader.open_sequence(|r| {
        let number = r.u64()?;
        let octets = r.open_set(|r| {
            let octets = r.octets()?.to_vec();
            r.null()?;
            Ok(octets)
        })?;
        let identifier = r.open_tagged(Tag::context(1), |r| Ok(r.oid()?.to_string()))?;
        let text = r.implicit(Tag::context(2)).ia5_string()?;
        Ok((number, octets, identifier, text.into()))
    });
    match found {
        Ok(found) => reader.end().map(|()| found),
        Err(error) => {
            assert_eq!((reader.offset(), reader.remaining()), (0, input));
            Err(error)
        }
    }
}

/// The elements of a list with this tag. None of another element.
fn inside<'a>(node: Node<'_, 'a>, tag: Tag) -> Vec<Any<'a>> {
    match node.tag() == tag {
        true => node.children().map(|child| child.any()).collect(),
        false => Vec::new(),
    }
}

/// The same by the elements of a tree.
fn fields_of_tree(input: &[u8]) -> Option<Fields> {
    let tree = Tree::parse_der(input).ok()?;
    let nodes: Vec<_> = tree.root().children().collect();
    let items = inside(tree.root(), Tag::SEQUENCE);
    let (number, set, tagged, text) = match items[..] {
        [number, _, _, text] => (
            number,
            inside(nodes[1], Tag::SET),
            inside(nodes[2], Tag::context(1)),
            text,
        ),
        _ => return None,
    };
    let (octets, identifier) = match (&set[..], &tagged[..]) {
        ([octets, null], [identifier]) if null.is_null() => (octets, identifier),
        _ => return None,
    };
    if number.tag() != Tag::INTEGER || text.tag() != Tag::context(2) || text.is_constructed() {
        return None;
    }
    let text = Some(text.content()).filter(|text| text.is_ascii())?;
    Some((
        number.as_u64().ok()?,
        octets.as_bytes().ok()?.to_vec(),
        identifier.as_oid().ok()?.to_string(),
        String::from_utf8(text.to_vec()).unwrap(),
    ))
}

#[test]
fn lists_and_tags() {
    let expected = (5, b"a".to_vec(), String::from("2.5.4.3"), String::from("a.b"));
    assert_eq!(fields(FIELDS), Ok(expected));
    let last = Reader::new(&FIELDS[19..]);
    assert!(last.is_next(Tag::context(2)) && !last.is_next(Tag::IA5_STRING));
}

/// Each change of an octet, and each cut: a reader reads what a tree has, and nothing else.
#[test]
fn beside_a_tree() {
    let mut read = 0;
    let mut compare = |input: &[u8]| {
        let found = fields(input);
        assert_eq!(
            found.as_ref().ok(),
            fields_of_tree(input).as_ref(),
            "{input:02x?}: {found:?}"
        );
        read += usize::from(found.is_ok());
    };
    for at in 0..FIELDS.len() {
        compare(&FIELDS[..at]);
        for octet in 0..=255 {
            let mut input = FIELDS.to_vec();
            input[at] = octet;
            compare(&input);
        }
    }
    assert!(read > 256);
}
