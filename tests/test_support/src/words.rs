//! What a reader answers, in the words of a row.
use der_parser::ber::{
    ASN1DateTime, ASN1TimeZone, Any, BerObject, BerObjectContent, Header, Length,
};
use der_parser::error::BerResult;
pub use test_words::{
    push_class, push_needed, push_number, push_refusal, push_refused, push_rest, push_tag,
};
use std::alloc::{AllocError, Global};
use test_tables::octets::{push_octets, push_word};

/// A value that a row spells.
pub trait Spelled {
    /// Adds the words of the value.
    fn push_to(&self, text: &mut String) -> Result<(), AllocError>;
}

/// The words of what a reader answers.
pub fn answer_of<V: Spelled + Drop>(
    alloc: Global,
    given: BerResult<'_, V>,
) -> Result<String, AllocError> {
    let mut text = String::new(alloc);
    push_answer(&mut text, &given)?;
    Ok(text)
}

/// The words of what a reader of objects answers.
pub fn answer_of_object(alloc: Global, given: BerResult<'_>) -> Result<String, AllocError> {
    answer_of(alloc, given)
}

/// Adds the words of what a reader answers.
pub fn push_answer<V: Spelled>(
    text: &mut String,
    given: &BerResult<'_, V>,
) -> Result<(), AllocError> {
    match given {
        Ok((rest, value)) => {
            push_word(text, "read")?;
            value.push_to(text)?;
            push_rest(text, rest)
        }
        Err(e) => push_refused(text, e),
    }
}

/// A header by its parts.
impl Spelled for Header<'_> {
    fn push_to(&self, text: &mut String) -> Result<(), AllocError> {
        push_header(text, self)
    }
}

/// Adds the parts of a header: its class, whether it is constructed, its tag number, its length and
/// its identifier octets.
pub fn push_header(text: &mut String, header: &Header<'_>) -> Result<(), AllocError> {
    push_class(text, header.class())?;
    push_word(
        text,
        if header.constructed() {
            "constructed"
        } else {
            "primitive"
        },
    )?;
    push_number(text, header.tag().0)?;
    push_length(text, header.length())?;
    push_word(text, "raw")?;
    match header.raw_tag() {
        Some(octets) => push_octets(text, octets),
        None => push_word(text, "none"),
    }
}

/// Adds the length that a header states.
pub fn push_length(text: &mut String, length: Length) -> Result<(), AllocError> {
    match length {
        Length::Definite(n) => push_number(text, n),
        Length::Indefinite => push_word(text, "indefinite"),
    }
}

/// An element whose content isn't read: its header, and its content octets.
impl Spelled for Any<'_> {
    fn push_to(&self, text: &mut String) -> Result<(), AllocError> {
        push_header(text, &self.header)?;
        push_word(text, "content")?;
        push_octets(text, self.bytes)
    }
}

/// An object by its content.
impl Spelled for BerObject<'_> {
    fn push_to(&self, text: &mut String) -> Result<(), AllocError> {
        push_content(text, &self.content)
    }
}

/// Octets as they are.
impl Spelled for &[u8] {
    fn push_to(&self, text: &mut String) -> Result<(), AllocError> {
        push_octets(text, self)
    }
}

/// A number as its value.
impl Spelled for i128 {
    fn push_to(&self, text: &mut String) -> Result<(), AllocError> {
        push_number(text, *self)
    }
}

impl Spelled for BerObjectContent<'_> {
    fn push_to(&self, text: &mut String) -> Result<(), AllocError> {
        push_content(text, self)
    }
}

/// Adds the words of a content.
#[cycle(contents)]
pub fn push_content(text: &mut String, content: &BerObjectContent<'_>) -> Result<(), AllocError> {
    match content {
        BerObjectContent::Sequence(items) => push_list(text, "Sequence", items),
        BerObjectContent::Set(items) => push_list(text, "Set", items),
        BerObjectContent::Optional(None) => push_word(text, "Absent"),
        BerObjectContent::Optional(Some(object)) => {
            push_word(text, "Present")?;
            push_content(text, &object.content)
        }
        BerObjectContent::Tagged(class, tag, object) => {
            push_word(text, "Tagged")?;
            push_tag(text, *class, *tag)?;
            push_content(text, &object.content)
        }
        leaf => push_leaf(text, leaf),
    }
}

/// Adds the words of the items of a list, between braces.
#[cycle(contents)]
fn push_list(text: &mut String, name: &str, items: &[BerObject<'_>]) -> Result<(), AllocError> {
    push_word(text, name)?;
    push_word(text, "{")?;
    for item in items {
        push_content(text, &item.content)?;
    }
    push_word(text, "}")
}

/// Adds the words of a content that has no items.
fn push_leaf(text: &mut String, content: &BerObjectContent<'_>) -> Result<(), AllocError> {
    match content {
        BerObjectContent::EndOfContent => push_word(text, "EndOfContent"),
        BerObjectContent::Null => push_word(text, "Null"),
        BerObjectContent::Boolean(true) => push_word(text, "Boolean true"),
        BerObjectContent::Boolean(false) => push_word(text, "Boolean false"),
        BerObjectContent::Enum(number) => {
            push_word(text, "Enum")?;
            push_number(text, *number)
        }
        BerObjectContent::BitString(unused, bits) => {
            push_word(text, "BitString")?;
            push_number(text, *unused)?;
            push_octets(text, bits.bytes)
        }
        BerObjectContent::UTCTime(time) => push_time(text, "UTCTime", time),
        BerObjectContent::GeneralizedTime(time) => push_time(text, "GeneralizedTime", time),
        BerObjectContent::Unknown(any) => {
            push_word(text, "Unknown")?;
            push_tag(text, any.class(), any.tag())?;
            push_octets(text, any.bytes)
        }
        by_octets => {
            let (name, octets) = name_and_octets(by_octets);
            push_word(text, name)?;
            push_octets(text, octets)
        }
    }
}

/// The name and the octets of a content that octets alone say.
fn name_and_octets<'o>(content: &'o BerObjectContent<'_>) -> (&'static str, &'o [u8]) {
    match content {
        BerObjectContent::Integer(octets) => ("Integer", *octets),
        BerObjectContent::OctetString(octets) => ("OctetString", *octets),
        BerObjectContent::OID(oid) => ("Oid", oid.as_bytes()),
        BerObjectContent::RelativeOID(oid) => ("RelativeOid", oid.as_bytes()),
        BerObjectContent::BmpString(octets) => ("BmpString", *octets),
        BerObjectContent::UniversalString(octets) => ("UniversalString", *octets),
        BerObjectContent::NumericString(text) => ("NumericString", text.as_bytes()),
        BerObjectContent::VisibleString(text) => ("VisibleString", text.as_bytes()),
        BerObjectContent::PrintableString(text) => ("PrintableString", text.as_bytes()),
        BerObjectContent::IA5String(text) => ("Ia5String", text.as_bytes()),
        BerObjectContent::UTF8String(text) => ("Utf8String", text.as_bytes()),
        BerObjectContent::T61String(text) => ("T61String", text.as_bytes()),
        BerObjectContent::VideotexString(text) => ("VideotexString", text.as_bytes()),
        BerObjectContent::ObjectDescriptor(text) => ("ObjectDescriptor", text.as_bytes()),
        BerObjectContent::GraphicString(text) => ("GraphicString", text.as_bytes()),
        BerObjectContent::GeneralString(text) => ("GeneralString", text.as_bytes()),
        _ => ("other", &[]),
    }
}

/// Adds the fields of a time.
fn push_time(text: &mut String, name: &str, time: &ASN1DateTime) -> Result<(), AllocError> {
    push_word(text, name)?;
    push_number(text, time.year)?;
    for field in [time.month, time.day, time.hour, time.minute, time.second] {
        push_number(text, field)?;
    }
    match time.nanosecond {
        Some(nanosecond) => push_number(text, nanosecond)?,
        None => push_word(text, "none")?,
    }
    push_zone(text, time.tz)
}

/// Adds the zone of a time.
fn push_zone(text: &mut String, zone: ASN1TimeZone) -> Result<(), AllocError> {
    match zone {
        ASN1TimeZone::Undefined => push_word(text, "undefined"),
        ASN1TimeZone::Z => push_word(text, "z"),
        ASN1TimeZone::Offset(hours, minutes) => {
            push_word(text, "offset")?;
            push_number(text, hours)?;
            push_number(text, minutes)
        }
    }
}
