//! What a call wants to know of an object, besides its content.
use crate::combinators::form::Given;
use der_parser::ber::{BerObject, BerObjectContent};
use der_parser::error::{BerError, BerResult};
use test_support::calls::push_written;
use test_support::words::{answer_of_object, push_header, push_number, push_refused};
use std::alloc::{AllocError, Global};
use test_tables::octets::push_word;

/// What a call wants to know of an object.
#[derive(Clone, Copy)]
pub enum View {
    /// Its header.
    Header,
    /// What it is written as.
    Written,
    /// Its capacity for items.
    Capacity,
    /// The number inside a tag, if it is there.
    NumberInside,
}

impl View {
    /// What a word before `of` in a call wants to know.
    pub fn named(name: &str) -> Option<View> {
        match name {
            "header" => Some(View::Header),
            "to_vec" => Some(View::Written),
            "capacity" => Some(View::Capacity),
            "number" => Some(View::NumberInside),
            _ => None,
        }
    }

    /// The words of what is wanted of the object that is read.
    pub fn answer(self, alloc: Global, given: BerResult<'_>) -> Result<String, AllocError> {
        let mut text = String::new(alloc);
        match &given {
            Ok((_, object)) => self.push(alloc, &mut text, object)?,
            Err(e) => push_refused(&mut text, e)?,
        }
        Ok(text)
    }

    /// Adds the words of what is wanted of the object.
    fn push(
        self,
        alloc: Global,
        text: &mut String,
        object: &BerObject<'_>,
    ) -> Result<(), AllocError> {
        match self {
            View::Header => push_header(text, &object.header),
            View::Written => push_written(alloc, text, object),
            View::Capacity => push_number(text, capacity_of(object)),
            View::NumberInside => push_number_inside(text, object),
        }
    }
}

/// The words of what a combinator answers, and of how often the parser that it keeps is called.
pub fn counted_answer(alloc: Global, given: Given<'_>) -> Result<String, AllocError> {
    let (calls, answer) = given;
    let mut text = answer_of_object(alloc, answer)?;
    push_calls(&mut text, calls)?;
    Ok(text)
}

/// Adds how often a parser is called.
pub fn push_calls(text: &mut String, calls: u64) -> Result<(), AllocError> {
    push_word(text, "calls")?;
    push_number(text, calls)
}

/// The capacity of the object for items.
fn capacity_of(object: &BerObject<'_>) -> usize {
    match &object.content {
        BerObjectContent::Sequence(items) => items.capacity(),
        BerObjectContent::Set(items) => items.capacity(),
        _ => 0,
    }
}

fn push_number_inside(text: &mut String, object: &BerObject<'_>) -> Result<(), AllocError> {
    match number_inside(object) {
        Ok(Some(number)) => push_number(text, number),
        Ok(None) => push_word(text, "absent"),
        Err(_) => push_word(text, "no number"),
    }
}

/// The number inside the tag of an object that may be absent.
fn number_inside(object: &BerObject<'_>) -> Result<Option<u64>, BerError> {
    let Some(tagged) = object.as_optional()? else {
        return Ok(None);
    };
    let (_, _, inner) = tagged.as_tagged()?;
    Ok(Some(inner.as_u64()?))
}
