//! The calls of rows that are answered with an object, and what is asked of the object.
//!
//! ```text
//! parse_ber                 what a reader answers; its words are in `Reader::of_call`
//! to_vec of parse_ber       what is written of the object
//! header 0 1 of parse_ber   the header of an item, by the place of an item in the object, and of one in that
//! count of parse_ber_counted 50   how many headers are read
//! ```
use crate::octets::octets;
use crate::reader::Reader;
use crate::words::{answer_of_object, push_header, push_number, push_refused};
use der_parser::ber::{BerObject, BerObjectContent, Header, HeaderCount, Tag};
use der_parser::error::BerResult;
use std::alloc::{AllocError, Global};
use test_tables::fault::Fault;
use test_tables::octets::{push_octets, push_word};

/// The readers that take the input alone, by their names.
const FULL_READERS: &[(&str, Reader)] = &[
    ("parse_ber", Reader::ParseBer),
    ("ber::parse_ber", Reader::BerParseBer),
    ("parse_der", Reader::ParseDer),
    ("der::parse_der", Reader::DerParseDer),
    ("visiblestring", Reader::Visiblestring),
    ("typed_by_ber", Reader::TypedByBer),
    ("typed_by_der", Reader::TypedByDer),
];

/// The types by the ends of the names of their readers.
const TYPES: &[(&str, Tag)] = &[
    ("endofcontent", Tag::EndOfContent),
    ("bool", Tag::Boolean),
    ("integer", Tag::Integer),
    ("bitstring", Tag::BitString),
    ("octetstring", Tag::OctetString),
    ("null", Tag::Null),
    ("oid", Tag::Oid),
    ("objectdescriptor", Tag::ObjectDescriptor),
    ("enum", Tag::Enumerated),
    ("utf8string", Tag::Utf8String),
    ("relative_oid", Tag::RelativeOid),
    ("sequence", Tag::Sequence),
    ("set", Tag::Set),
    ("numericstring", Tag::NumericString),
    ("printablestring", Tag::PrintableString),
    ("t61string", Tag::T61String),
    ("videotexstring", Tag::VideotexString),
    ("ia5string", Tag::Ia5String),
    ("utctime", Tag::UtcTime),
    ("generalizedtime", Tag::GeneralizedTime),
    ("graphicstring", Tag::GraphicString),
    ("visiblestring", Tag::VisibleString),
    ("generalstring", Tag::GeneralString),
    ("universalstring", Tag::UniversalString),
    ("bmpstring", Tag::BmpString),
];

/// What a call on objects answers.
pub fn answer_of_call(alloc: Global, call: &str, input: &str) -> Result<String, Fault> {
    let (question, words) = split_call(call);
    let reader = Reader::of_call(words).ok_or(Fault::NoSuchCall)?;
    let input = octets(alloc, input)?;
    answer_on(alloc, question, reader, &input)
}

/// What is asked of an object, if anything, and the reader's words.
fn split_call(call: &str) -> (Option<&str>, &str) {
    match call.split_once(" of ") {
        Some((question, words)) => (Some(question), words),
        None => (None, call),
    }
}

fn answer_on(
    alloc: Global,
    question: Option<&str>,
    reader: Reader,
    input: &[u8],
) -> Result<String, Fault> {
    let Some(question) = question else {
        return Ok(answer_of_object(alloc, reader.read(alloc, input))?);
    };
    match question.strip_prefix("header") {
        Some(path) => Ok(header_of_object(alloc, reader.read(alloc, input), path)?),
        None => answer_on_whole(alloc, question, reader, input),
    }
}

fn answer_on_whole(
    alloc: Global,
    question: &str,
    reader: Reader,
    input: &[u8],
) -> Result<String, Fault> {
    match question {
        "to_vec" => Ok(written_of_object(alloc, reader.read(alloc, input))?),
        "count" => Ok(count_of_headers(alloc, reader, input)?),
        _ => Err(Fault::NoSuchCall),
    }
}

impl Reader {
    /// The reader that a call names, with the tag number or the depth that it takes.
    pub fn of_call(call: &str) -> Option<Reader> {
        let mut words = call.split_ascii_whitespace();
        let name = words.next()?;
        match (words.next(), words.next()) {
            (Some(tag), Some(depth)) => {
                of_tag_to_depth(name, tag.parse().ok()?, depth.parse().ok()?)
            }
            (Some(number), None) => {
                let number: usize = number.parse().ok()?;
                to_depth(name, number).or_else(|| of_tag(name, number))
            }
            _ => of_input(name),
        }
    }
}

/// The reader of this name that takes the input alone.
fn of_input(name: &str) -> Option<Reader> {
    let full = FULL_READERS.iter().find(|(known, _)| *known == name);
    if let Some((_, reader)) = full {
        return Some(*reader);
    }
    match name.strip_prefix("parse_ber_") {
        Some(end) => type_named(end).map(Reader::TypeByBer),
        None => type_named(name.strip_prefix("parse_der_")?).map(Reader::TypeByDer),
    }
}

/// The type whose readers have names with this end.
fn type_named(end: &str) -> Option<Tag> {
    let named = TYPES.iter().find(|(known, _)| *known == end);
    named.map(|(_, tag)| *tag)
}

/// The reader of this name that takes a depth.
fn to_depth(name: &str, depth: usize) -> Option<Reader> {
    match name {
        "parse_ber_recursive" => Some(Reader::ParseBerRecursive(depth)),
        "parse_ber_any_r" => Some(Reader::ParseBerAnyR(depth)),
        "parse_ber_counted" => Some(Reader::ParseBerCounted(depth)),
        "parse_der_recursive" => Some(Reader::ParseDerRecursive(depth)),
        "parse_der_counted" => Some(Reader::ParseDerCounted(depth)),
        _ => None,
    }
}

/// The reader of this name that takes a tag number.
fn of_tag(name: &str, number: usize) -> Option<Reader> {
    let tag = Tag(u32::try_from(number).ok()?);
    match name {
        "parse_ber_with_tag" => Some(Reader::ParseBerWithTag(tag)),
        "parse_der_with_tag" => Some(Reader::ParseDerWithTag(tag)),
        _ => None,
    }
}

/// The reader of this name that takes a tag number and a depth.
fn of_tag_to_depth(name: &str, number: u32, depth: usize) -> Option<Reader> {
    match name {
        "parse_ber_any_with_tag_r" => Some(Reader::ParseBerAnyWithTagR(Tag(number), depth)),
        _ => None,
    }
}

/// How many headers a reader reads. A count goes on from where it stands: where another such call
/// doesn't count as many, both counts are told.
fn count_of_headers(alloc: Global, reader: Reader, input: &[u8]) -> Result<String, AllocError> {
    let mut count = HeaderCount::new();
    let _ = reader.read_counted(alloc, input, &mut count);
    let first = count.count();
    let _ = reader.read_counted(alloc, input, &mut count);
    text_of_counts(alloc, first, count.count())
}

fn text_of_counts(alloc: Global, first: u128, both: u128) -> Result<String, AllocError> {
    let mut text = String::new(alloc);
    push_number(&mut text, first)?;
    if first.checked_add(first) != Some(both) {
        push_word(&mut text, "then")?;
        push_number(&mut text, both)?;
    }
    Ok(text)
}

/// What `to_vec` writes of an object that is read.
fn written_of_object(alloc: Global, given: BerResult<'_>) -> Result<String, AllocError> {
    let mut text = String::new(alloc);
    match &given {
        Ok((_, object)) => push_written(alloc, &mut text, object)?,
        Err(e) => push_refused(&mut text, e)?,
    }
    Ok(text)
}

/// Adds what `to_vec` writes of an object.
pub fn push_written(
    alloc: Global,
    text: &mut String,
    object: &BerObject<'_>,
) -> Result<(), AllocError> {
    push_word(text, "written")?;
    match object.to_vec(alloc) {
        Ok(octets) => push_octets(text, &octets),
        Err(_) => push_word(text, "not"),
    }
}

/// The header of an object that is read, or of an item of it.
fn header_of_object(alloc: Global, given: BerResult<'_>, path: &str) -> Result<String, AllocError> {
    let mut text = String::new(alloc);
    match &given {
        Ok((_, object)) => push_header_at(&mut text, object, path)?,
        Err(e) => push_refused(&mut text, e)?,
    }
    Ok(text)
}

fn push_header_at(text: &mut String, object: &BerObject<'_>, path: &str) -> Result<(), AllocError> {
    match item_at(object, path) {
        Some(item) => push_headers_of(text, item),
        None => push_word(text, "no item"),
    }
}

/// Adds the header of an object, and the one that an unknown content keeps if it is another one.
fn push_headers_of(text: &mut String, item: &BerObject<'_>) -> Result<(), AllocError> {
    push_header(text, &item.header)?;
    match &item.content {
        BerObjectContent::Unknown(any) if !has_same_parts(&any.header, &item.header) => {
            push_word(text, "kept")?;
            push_header(text, &any.header)
        }
        _ => Ok(()),
    }
}

/// Whether headers have the same parts. `==` compares neither lengths nor identifier octets.
pub fn has_same_parts(left: &Header<'_>, right: &Header<'_>) -> bool {
    left == right && left.length() == right.length() && left.raw_tag() == right.raw_tag()
}

/// The item to which a path leads.
fn item_at<'a, 'b>(object: &'b BerObject<'a>, path: &str) -> Option<&'b BerObject<'a>> {
    path.split_ascii_whitespace()
        .try_fold(object, |list, place| item_of(list, place))
}

/// The item at a place of a SEQUENCE or SET.
fn item_of<'a, 'b>(object: &'b BerObject<'a>, place: &str) -> Option<&'b BerObject<'a>> {
    let place: usize = place.parse().ok()?;
    match &object.content {
        BerObjectContent::Sequence(items) | BerObjectContent::Set(items) => items.get(place),
        _ => None,
    }
}
