//! The parts of an object, its items, and the questions on its header.
use der_parser::ber::{BerObject, Class, Tag};
use der_parser::error::BerError;
use test_support::words::{push_number, push_refusal};
use std::alloc::{AllocError, Global};
use test_tables::fault::Fault;
use test_tables::octets::{push_octets, push_word};

/// What the accessors return. One that refuses the object as of the wrong type adds nothing.
pub fn parts(alloc: Global, object: &BerObject<'_>) -> Result<String, Fault> {
    let mut text = String::new(alloc);
    push_scalars(&mut text, object)?;
    push_bits(&mut text, object)?;
    push_texts(&mut text, object)?;
    push_lists(&mut text, object)?;
    Ok(or_nothing(text)?)
}

/// The text, or that there is nothing.
fn or_nothing(mut text: String) -> Result<String, AllocError> {
    if text.is_empty() {
        text.push_str("nothing")?;
    }
    Ok(text)
}

/// Adds an error that isn't that of a wrong type.
fn push_error(text: &mut String, call: &str, e: BerError) -> Result<(), AllocError> {
    if e == BerError::BerTypeError {
        return Ok(());
    }
    push_word(text, call)?;
    push_refusal(text, &e)
}

/// Adds the octets that an accessor returns.
fn push_given(text: &mut String, call: &str, octets: &[u8]) -> Result<(), AllocError> {
    push_word(text, call)?;
    push_octets(text, octets)
}

/// Adds the number that an accessor returns.
fn push_count(text: &mut String, call: &str, count: usize) -> Result<(), AllocError> {
    push_word(text, call)?;
    push_number(text, count)
}

/// Adds a truth value, an identifier and the year of a time.
fn push_scalars(text: &mut String, object: &BerObject<'_>) -> Result<(), AllocError> {
    match object.as_bool() {
        Ok(true) => push_word(text, "as_bool true")?,
        Ok(false) => push_word(text, "as_bool false")?,
        Err(e) => push_error(text, "as_bool", e)?,
    }
    match object.as_oid() {
        Ok(oid) if oid.is_relative() => push_given(text, "as_oid relative", oid.as_bytes())?,
        Ok(oid) => push_given(text, "as_oid", oid.as_bytes())?,
        Err(e) => push_error(text, "as_oid", e)?,
    }
    match object.as_datetime() {
        Ok(time) => push_count(text, "as_datetime", time.year as usize),
        Err(e) => push_error(text, "as_datetime", e),
    }
}

/// Adds a bit string, by both accessors.
fn push_bits(text: &mut String, object: &BerObject<'_>) -> Result<(), AllocError> {
    match object.as_bitstring() {
        Ok(bits) => push_given(text, "as_bitstring", bits.bytes)?,
        Err(e) => push_error(text, "as_bitstring", e)?,
    }
    match object.as_bitstring_ref() {
        Ok(bits) => push_given(text, "as_bitstring_ref", bits.bytes),
        Err(e) => push_error(text, "as_bitstring_ref", e),
    }
}

/// Adds a text and octets.
fn push_texts(text: &mut String, object: &BerObject<'_>) -> Result<(), AllocError> {
    match object.as_str() {
        Ok(characters) => push_given(text, "as_str", characters.as_bytes())?,
        Err(e) => push_error(text, "as_str", e)?,
    }
    match object.as_slice() {
        Ok(octets) => push_given(text, "as_slice", octets),
        Err(e) => push_error(text, "as_slice", e),
    }
}

/// Adds how many items a list has.
fn push_lists(text: &mut String, object: &BerObject<'_>) -> Result<(), AllocError> {
    match object.as_sequence() {
        Ok(items) => push_count(text, "as_sequence", items.len())?,
        Err(e) => push_error(text, "as_sequence", e)?,
    }
    match object.as_set() {
        Ok(items) => push_count(text, "as_set", items.len()),
        Err(e) => push_error(text, "as_set", e),
    }
}

/// The octets of an object's items, one after another.
pub fn items(alloc: Global, object: &BerObject<'_>) -> Result<String, Fault> {
    let mut text = String::new(alloc);
    for item in object.ref_iter() {
        push_item(&mut text, item)?;
    }
    Ok(or_nothing(text)?)
}

/// Adds the octets of an item, or why it has none.
fn push_item(text: &mut String, item: &BerObject<'_>) -> Result<(), AllocError> {
    push_word(text, "item")?;
    match item.as_slice() {
        Ok(octets) => push_octets(text, octets),
        Err(e) => push_refusal(text, &e),
    }
}

/// How many of the object's items have octets.
pub fn count(alloc: Global, object: &BerObject<'_>) -> Result<String, Fault> {
    let count = object
        .ref_iter()
        .filter(|item| item.as_slice().is_ok())
        .count();
    Ok(format!(in alloc; "{count}")?)
}

/// The octets of the objects that the object is moved into.
pub fn moved(alloc: Global, object: BerObject<'_>) -> Result<String, Fault> {
    let mut text = String::new(alloc);
    for item in object {
        push_item(&mut text, &item)?;
    }
    Ok(or_nothing(text)?)
}

/// The numbers of the items of a list of two, by their places.
pub fn places(alloc: Global, object: &BerObject<'_>) -> Result<String, Fault> {
    let mut text = String::new(alloc);
    match object.as_sequence() {
        Ok(items) if items.len() == 2 => {
            push_value(&mut text, &object[0])?;
            push_value(&mut text, &object[1])?;
        }
        _ => push_word(&mut text, "no list of two")?,
    }
    Ok(text)
}

/// Adds the number of an object.
fn push_value(text: &mut String, object: &BerObject<'_>) -> Result<(), AllocError> {
    match object.as_u64() {
        Ok(number) => push_number(text, number),
        Err(e) => push_refusal(text, &e),
    }
}

/// Whether the questions on an object are those on its header.
pub fn header(alloc: Global, object: &BerObject<'_>) -> Result<String, Fault> {
    let answer = if is_asked_as_header(object) {
        "same"
    } else {
        "different"
    };
    Ok(String::from_str(alloc, answer)?)
}

fn is_asked_as_header(o: &BerObject<'_>) -> bool {
    let header = o.header;
    let asked = [
        o.class() == header.class(),
        o.tag() == header.tag(),
        o.length() == header.length(),
        o.is_universal() == o.assert_class(Class::Universal).is_ok(),
        o.is_application() == header.is_application(),
        o.is_contextspecific() == header.is_contextspecific(),
        o.is_private() == header.is_private(),
        o.is_primitive() == o.assert_primitive().is_ok(),
        o.is_constructed() == o.assert_constructed().is_ok(),
        o.assert_tag(Tag::Set).is_ok() == (o.tag() == Tag::Set),
    ];
    !asked.contains(&false)
}
