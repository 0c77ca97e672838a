//! Names.
use der_base::error::BerError;
use der_cursor::Cursor;
use der_uses::names::{Attr, Name};
use x509::parts::read_name;
use extension_text::names::NameText;
use test_words::{push_number, push_refusal, push_refused, push_rest};
use std::alloc::{AllocError, Global};
use test_tables::fault::Fault;
use test_tables::octets::{push_octets, push_word};

/// The text of a name with `_` in place of spaces, and whether octets follow it; or the refusal as it is printed.
pub fn name_text(alloc: Global, octets: &[u8]) -> Result<String, Fault> {
    let mut input = Cursor::new(octets);
    let text = match read_name(&mut input) {
        Ok(name) => format!(in alloc; "{}", NameText { name })?,
        Err(e) => return Ok(format!(in alloc; "{e}")?),
    };
    let mut spelled = String::new(alloc);
    for character in text.chars() {
        spelled.push(if character == ' ' { '_' } else { character })?;
    }
    push_rest(&mut spelled, input.remaining())?;
    Ok(spelled)
}

/// The relative names of a name in braces, with the attributes of each: the octets of the type, the tag number and the
/// octets of the text.
pub fn plain_name(alloc: Global, octets: &[u8]) -> Result<String, Fault> {
    let mut text = String::new(alloc);
    match der_uses::names::read_name(alloc, octets) {
        Ok((rest, name)) => {
            push_name(&mut text, name)?;
            push_rest(&mut text, rest)?;
        }
        Err(e) => push_refused(&mut text, &e)?,
    }
    Ok(text)
}

fn push_name(text: &mut String, name: Name<'_>) -> Result<(), AllocError> {
    push_word(text, "read")?;
    for attributes in &name.rdns {
        push_word(text, "{")?;
        push_attributes(text, attributes)?;
        push_word(text, "}")?;
    }
    Ok(())
}

fn push_attributes(text: &mut String, attributes: &[Attr<'_>]) -> Result<(), AllocError> {
    for attribute in attributes {
        push_octets(text, attribute.oid.as_bytes())?;
        push_value(
            text,
            attribute.value.header.tag().0,
            attribute.value.as_str(),
        )?;
    }
    Ok(())
}

/// Adds a tag number, and the octets of a text or the refusal of it.
fn push_value(
    text: &mut String,
    number: u32,
    value: Result<&str, BerError>,
) -> Result<(), AllocError> {
    push_word(text, "tag")?;
    push_number(text, number)?;
    match value {
        Ok(value) => {
            push_word(text, "text")?;
            push_octets(text, value.as_bytes())
        }
        Err(e) => push_refusal(text, &e),
    }
}
