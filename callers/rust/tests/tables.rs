//! The rows of the library's tests that say what X.690 has of elements: `are_elements` and `is_element` with a depth,
//! and `refused` and `walk` with the rules, whose answer ends with the first fault.
#![cfg(feature = "std")]
use dumarewhi::{write_der, ErrorKind, Reason, Result, Rules};
use std::path::{Path, PathBuf};
use std::{fs, io};

/// The errors whose texts in rows are those of causes, by how these begin, or which rows name.
const CAUSES: &[(&str, Reason)] = &[
    ("it ends ", Reason::OVERRUN),
    ("the tag number isn't in the fewest octets", Reason::INVALID_TAG),
    ("the first length octet is ff", Reason::INVALID_LENGTH),
    ("the tag number is above ", Reason::INVALID_TAG),
    ("the length is above ", Reason::INVALID_LENGTH),
    (
        "a primitive element has an indefinite length",
        Reason::CONSTRUCTED_EXPECTED,
    ),
    ("a length is indefinite", Reason::INDEFINITE_LENGTH),
    ("a length isn't in the fewest octets", Reason::LENGTH_NOT_MINIMAL),
    (
        "the encoding of this type must be primitive",
        Reason::PRIMITIVE_EXPECTED,
    ),
    ("a string is constructed", Reason::CONSTRUCTED),
    ("elements are nested more than 100 deep", Reason::MAX_DEPTH),
    ("PastEnd ", Reason::OVERRUN),
    ("NoEndMarker", Reason::NO_END_MARKER),
    ("ConstructedString", Reason::CONSTRUCTED),
    ("ArcPadded", Reason::ARC_PADDED),
    ("CharacterOutside", Reason::CHARACTER_OUTSIDE),
    ("BmpStringLength", Reason::BMP_STRING_LENGTH),
    ("TimeText", Reason::TIME_TEXT),
];

/// How the text of cut input begins, before the number of octets that are missing.
const CUT: &[&str] = &["the input is cut, at least ", "Cut "];

/// The files of rows.
fn files() -> io::Result<Vec<PathBuf>> {
    let tests = Path::new(env!("CARGO_MANIFEST_DIR")).join("../../tests");
    let mut files = Vec::new();
    for program in ["rows", "rows_of_objects"] {
        for area in fs::read_dir(tests.join(program).join("data"))? {
            for file in fs::read_dir(area?.path())? {
                files.push(file?.path());
            }
        }
    }
    files.retain(|file| file.extension() == Some("rows".as_ref()));
    Ok(files)
}

/// A call whose answers are compared.
enum Call {
    AreElements { depth: usize },
    IsElement { depth: usize },
    Refused(Rules),
}

impl Call {
    fn new(words: &str) -> Option<Call> {
        let (name, word) = words.split_once(' ')?;
        let depth = || word.parse().unwrap();
        match (name, word) {
            ("are_elements", _) => Some(Call::AreElements { depth: depth() }),
            ("is_element", _) => Some(Call::IsElement { depth: depth() }),
            ("refused" | "walk", "BER") => Some(Call::Refused(Rules::BER)),
            ("refused", "DER") | ("walk", "DER keeping") => Some(Call::Refused(Rules::DER)),
            _ => None,
        }
    }

    fn compare(&self, octets: &[u8], answer: &str) {
        match self {
            Call::AreElements { depth } => {
                let are = |rules: Rules| check_all(rules.with_max_depth(*depth), octets).is_ok();
                assert_eq!(answer, rules_named(are));
            }
            Call::IsElement { depth } => {
                let is = |rules: Rules| {
                    let found = rules.with_max_depth(*depth).check(octets);
                    found.map_or(false, |found| found.length == octets.len())
                };
                assert_eq!(answer, rules_named(is));
            }
            Call::Refused(rules) => compare_fault(check_all(*rules, octets), answer),
        }
    }
}

/// Checks elements that follow one another. The offset of an error is that in all octets.
fn check_all(rules: Rules, octets: &[u8]) -> Result<()> {
    let mut at = 0;
    while at < octets.len() {
        let found = rules.check(&octets[at..]);
        let found = found.map_err(|error| dumarewhi::Error::new(error.kind(), at + error.offset()))?;
        at += found.length;
    }
    Ok(())
}

/// By which rules this is so.
fn rules_named(is_so: impl Fn(Rules) -> bool) -> &'static str {
    match (is_so(Rules::BER), is_so(Rules::DER)) {
        (true, true) => "BER and DER",
        (true, false) => "BER",
        (false, true) => "DER",
        (false, false) => "none",
    }
}

/// Compares the first fault with `1 at 5, PATH: TEXT` or with `0 2 CAUSE at 2`, and none with an answer that ends in
/// `end`.
fn compare_fault(checked: Result<()>, answer: &str) {
    let (front, place) = match answer.split_once(" at ") {
        Some(stated) => stated,
        None => return assert_eq!((checked, answer.ends_with("end")), (Ok(()), true)),
    };
    let (place, text) = match place.split_once(": ") {
        Some(stated) => stated,
        None => (
            place,
            front.trim_start_matches(|c: char| c == ' ' || c.is_ascii_digit()),
        ),
    };
    // What `der` says of the outermost element isn't in the text of an error.
    let text = text.split("; the outermost element claims ").next().unwrap();
    let error = checked.unwrap_err();
    let follows = text.ends_with(" after the end");
    let reason = match error.kind() {
        ErrorKind::Malformed(reason) => reason,
        // What follows the last element is read as one here, which may be cut.
        ErrorKind::Incomplete { .. } if follows => return,
        ErrorKind::Incomplete { missing } => {
            let stated = CUT.iter().find_map(|front| text.strip_prefix(front)).unwrap();
            return assert_eq!(stated.split(' ').next().unwrap().parse(), Ok(missing));
        }
        kind => panic!("{kind}"),
    };
    assert_eq!(place.split(',').next().unwrap().parse(), Ok(error.offset()));
    match CAUSES.iter().find(|(front, _)| text.starts_with(front)) {
        Some((_, stated)) => assert_eq!(*stated, reason),
        None if follows => {}
        None => assert_eq!(text, reason.to_string()),
    }
}

/// What is checked as elements is written, and what is DER as it is.
fn compare_written(octets: &[u8]) {
    let mut out = vec![0; octets.len()];
    let written = write_der(octets, &mut out);
    if check_all(Rules::DER, octets).is_ok() {
        assert_eq!((written, &out[..]), (Ok(octets.len()), octets));
    } else if check_all(Rules::BER, octets).is_err() {
        assert!(written.is_err());
    }
}

/// The octets that words spell, as `02`, or repeated ones as `30.80*2`. None if they spell others.
fn octets(words: &str) -> Option<Vec<u8>> {
    let mut octets = Vec::new();
    for word in words.split_whitespace() {
        let (numbers, count) = word.split_once('*').unwrap_or((word, "1"));
        let numbers: std::result::Result<Vec<_>, _> = numbers
            .split('.')
            .map(|number| u8::from_str_radix(number, 16))
            .collect();
        octets.extend(numbers.ok()?.repeat(count.parse().ok()?));
    }
    Some(octets)
}

/// Compares the rows of a file. Returns how many answers there were.
fn compare(file: &Path) -> usize {
    let (mut calls, mut count) = ("", 0);
    let text = fs::read_to_string(file).unwrap();
    for line in text
        .lines()
        .filter(|line| !line.is_empty() && !line.starts_with('#'))
    {
        if let Some(named) = line.strip_prefix('[').and_then(|it| it.strip_suffix(']')) {
            calls = named;
            continue;
        }
        let fields: Vec<_> = line.splitn(3, '|').collect();
        assert_eq!(fields.len(), 3, "{}: {line}", file.display());
        println!("{}: {line}", file.display());
        let octets = match octets(fields[0]) {
            Some(octets) => octets,
            None => continue,
        };
        for call in calls.split(',').filter_map(|call| Call::new(call.trim())) {
            call.compare(&octets, fields[1].trim());
            count += 1;
        }
        compare_written(&octets);
    }
    count
}

#[test]
fn rows_of_the_library() {
    let files = files().unwrap();
    let answers: usize = files.iter().map(|file| compare(file)).sum();
    assert!(answers > 0);
}
