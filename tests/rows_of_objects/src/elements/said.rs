//! What a caller says of a content, in front of its octets: `constructed 16 indefinite depth 2: 05 00 00 00`.
use der_parser::ber::{Class, Header, Length, Tag};
use std::str::SplitAsciiWhitespace;

/// What a caller says of a content that it has read: the type, and how the content is encoded.
#[derive(Clone, Copy)]
pub struct Said {
    pub constructed: bool,
    pub tag: Tag,
    pub length: Length,
    pub depth: usize,
}

/// What a caller says of a content, and the octets as a text.
pub fn read_said(input: &str) -> Option<(Said, &str)> {
    let (before, octets) = input.split_once(':')?;
    let (form, depth) = before.split_once("depth")?;
    let mut words = form.split_ascii_whitespace();
    let (constructed, tag, length) = read_form(&mut words)?;
    let said = Said {
        constructed,
        tag,
        length,
        depth: depth.trim_ascii().parse().ok()?,
    };
    Some((said, octets))
}

/// A header, with the identifier octets of none, and the octets behind it as a text.
pub fn read_header(input: &str) -> Option<(Header<'static>, &str)> {
    let (before, octets) = input.split_once(':')?;
    let mut words = before.split_ascii_whitespace();
    let class = class_named(words.next()?)?;
    let (constructed, tag, length) = read_form(&mut words)?;
    let header = Header::new(class, constructed, tag, length).with_raw_tag(Some(b"\x01"));
    Some((header, octets))
}

/// Whether a content is constructed, its tag number and its length.
fn read_form(words: &mut SplitAsciiWhitespace<'_>) -> Option<(bool, Tag, Length)> {
    let constructed = match words.next()? {
        "primitive" => false,
        "constructed" => true,
        _ => return None,
    };
    let tag = Tag(words.next()?.parse().ok()?);
    Some((constructed, tag, length_of(words.next()?)?))
}

fn length_of(word: &str) -> Option<Length> {
    match word {
        "indefinite" => Some(Length::Indefinite),
        number => number.parse().ok().map(Length::Definite),
    }
}

fn class_named(name: &str) -> Option<Class> {
    match name {
        "universal" => Some(Class::Universal),
        "application" => Some(Class::Application),
        "context-specific" => Some(Class::ContextSpecific),
        "private" => Some(Class::Private),
        _ => None,
    }
}
