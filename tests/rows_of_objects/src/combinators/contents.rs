//! Contents of tags by combinators that answer what the parser that they keep answers, and content octets.
use crate::combinators::names::tag_of;
use crate::combinators::own::{OwnResult, own_integer, own_number, push_own_refused};
use der_parser::Rules;
use der_parser::ber::{
    Header, Length, Tag, parse_ber_slice, parse_ber_tagged_explicit, parse_ber_tagged_explicit_g,
    parse_ber_tagged_implicit_g,
};
use der_parser::der::{
    parse_der_slice, parse_der_tagged_explicit, parse_der_tagged_explicit_g,
    parse_der_tagged_implicit_g,
};
use der_parser::error::BerResult;
use test_support::words::{push_content, push_length, push_number, push_refused, push_rest};
use std::alloc::{AllocError, Global};
use test_tables::fault::Fault;
use test_tables::octets::{push_octets, push_word};

/// Whether these words name a call of this module.
pub fn answers(form: &str, words: &str) -> bool {
    matches!(form, "tagged_explicit_g" | "tagged_implicit_g" | "slice")
        || form == "tagged_explicit" && words.ends_with("own_integer")
}

/// The words of what a call answers, whose first word is a tag.
pub fn answer(
    alloc: Global,
    rules: Rules,
    form: &str,
    words: &str,
    i: &[u8],
) -> Result<String, Fault> {
    let (tag, parser) = tag_of(words).ok_or(Fault::NoSuchCall)?;
    match (form, parser) {
        ("tagged_explicit_g", "own_number") => Ok(number_answer(alloc, rules, tag, i)?),
        ("tagged_explicit", "own_integer") => Ok(object_answer(alloc, rules, tag, i)?),
        ("tagged_implicit_g", "taking_all") => Ok(handed_answer(alloc, rules, tag, i)?),
        ("slice", "") => Ok(slice_answer(alloc, rules, tag, i)?),
        _ => Err(Fault::NoSuchCall),
    }
}

/// The words of what an explicit tag of a number answers, whose parser has an error type of its own.
pub fn number_answer(
    alloc: Global,
    rules: Rules,
    tag: Tag,
    i: &[u8],
) -> Result<String, AllocError> {
    let mut text = String::new(alloc);
    match number_inside(rules, tag, i) {
        Ok((rest, value)) => {
            push_word(&mut text, "read")?;
            push_number(&mut text, value)?;
            push_rest(&mut text, rest)?;
        }
        Err(e) => push_own_refused(&mut text, &e)?,
    }
    Ok(text)
}

/// Reads a number inside an explicit tag.
fn number_inside(rules: Rules, tag: Tag, i: &[u8]) -> OwnResult<'_, u32> {
    match rules {
        Rules::Ber => parse_ber_tagged_explicit_g(tag, inner_number).parse(i),
        Rules::Der => parse_der_tagged_explicit_g(tag, inner_number).parse(i),
    }
}

fn inner_number<'a>(content: &'a [u8], _header: Header<'a>) -> OwnResult<'a, u32> {
    own_number(content)
}

/// The words of what an explicit tag of an object answers, whose parser has an error type of its own.
pub fn object_answer(
    alloc: Global,
    rules: Rules,
    tag: Tag,
    i: &[u8],
) -> Result<String, AllocError> {
    let given = match rules {
        Rules::Ber => parse_ber_tagged_explicit(alloc, tag, own_integer).parse(i),
        Rules::Der => parse_der_tagged_explicit(alloc, tag, own_integer).parse(i),
    };
    let mut text = String::new(alloc);
    match &given {
        Ok((rest, object)) => {
            push_word(&mut text, "read")?;
            push_content(&mut text, &object.content)?;
            push_rest(&mut text, rest)?;
        }
        Err(e) => push_own_refused(&mut text, e)?,
    }
    Ok(text)
}

/// What the parser under an implicit tag is handed: the content, the length in its header, and the depth.
type Handed<'a> = (&'a [u8], Length, usize);

/// The words of what an implicit tag hands to its parser.
pub fn handed_answer(
    alloc: Global,
    rules: Rules,
    tag: Tag,
    i: &[u8],
) -> Result<String, AllocError> {
    let mut text = String::new(alloc);
    match handed(rules, tag, i) {
        Ok((rest, (content, length, depth))) => {
            push_word(&mut text, "content")?;
            push_octets(&mut text, content)?;
            push_word(&mut text, "length")?;
            push_length(&mut text, length)?;
            push_word(&mut text, "depth")?;
            push_number(&mut text, depth)?;
            push_rest(&mut text, rest)?;
        }
        Err(e) => push_own_refused(&mut text, &e)?,
    }
    Ok(text)
}

/// What an implicit tag hands to its parser.
fn handed(rules: Rules, tag: Tag, i: &[u8]) -> OwnResult<'_, Handed<'_>> {
    match rules {
        Rules::Ber => parse_ber_tagged_implicit_g(tag, take_all).parse(i),
        Rules::Der => parse_der_tagged_implicit_g(tag, take_all).parse(i),
    }
}

/// Takes the whole content, and answers what it is handed.
fn take_all<'a>(content: &'a [u8], header: Header<'a>, depth: usize) -> OwnResult<'a, Handed<'a>> {
    Ok((content, (content, header.length(), depth)))
}

/// The words of the content octets of an element of this tag number.
pub fn slice_answer(alloc: Global, rules: Rules, tag: Tag, i: &[u8]) -> Result<String, AllocError> {
    let mut text = String::new(alloc);
    match slice(rules, tag, i) {
        Ok((rest, content)) => {
            push_word(&mut text, "read")?;
            push_octets(&mut text, content)?;
            push_rest(&mut text, rest)?;
        }
        Err(e) => push_refused(&mut text, &e)?,
    }
    Ok(text)
}

fn slice(rules: Rules, tag: Tag, i: &[u8]) -> BerResult<'_, &[u8]> {
    match rules {
        Rules::Ber => parse_ber_slice(i, tag),
        Rules::Der => parse_der_slice(i, tag),
    }
}
