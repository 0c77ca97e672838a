//! Tries files of rows: combinators, over the parsers that they keep. A call names the combinator, its tag if it has
//! one, and the parser, as `parse_ber_tagged_explicit 2 parse_ber_integer`.

mod contents;
mod form;
mod kept;
mod lists;
mod names;
mod own;
mod tags;
mod values;
mod view;

use crate::combinators::form::Form;
use crate::combinators::names::{first_word, rules_of};
use crate::combinators::view::{View, counted_answer};
use der_parser::ber::Tag;
use test_support::reader::Reader;
use test_support::words::answer_of_object;
use std::alloc::Global;
use test_tables::fault::Fault;
use test_tables::octets::octets;
use test_tables::run::Calls;

/// Combinators, and readers that read the same.
pub struct Combinators;

impl Calls for Combinators {
    fn answer(&self, alloc: Global, call: &str, input: &str) -> Result<String, Fault> {
        let input = octets(alloc, input)?;
        answer_of_call(alloc, call, &input)
    }
}

/// What the call answers on these octets, or what is asked of the object that it reads.
fn answer_of_call(alloc: Global, call: &str, i: &[u8]) -> Result<String, Fault> {
    match call.split_once(" of ") {
        Some((question, call)) => answer_of_view(alloc, question, call, i),
        None => answer_of_combinator(alloc, call, i),
    }
}

fn answer_of_combinator(alloc: Global, call: &str, i: &[u8]) -> Result<String, Fault> {
    let (name, words) = first_word(call);
    match rules_of(name) {
        Some((rules, "sequence_of_v")) => values::answer(alloc, rules, Tag::Sequence, words, i),
        Some((rules, "set_of_v")) => values::answer(alloc, rules, Tag::Set, words, i),
        Some((rules, form)) if contents::answers(form, words) => {
            contents::answer(alloc, rules, form, words, i)
        }
        _ => answer_of_form(alloc, call, i),
    }
}

/// What a call that reads an object answers.
fn answer_of_form(alloc: Global, call: &str, i: &[u8]) -> Result<String, Fault> {
    match (Form::named(call), Reader::of_call(call)) {
        (Some(form), _) => Ok(counted_answer(alloc, form.read(alloc, i))?),
        (None, Some(reader)) => Ok(answer_of_object(alloc, reader.read(alloc, i))?),
        (None, None) => Err(Fault::NoSuchCall),
    }
}

/// What is asked of the object that a call reads.
fn answer_of_view(alloc: Global, question: &str, call: &str, i: &[u8]) -> Result<String, Fault> {
    let view = View::named(question).ok_or(Fault::NoSuchCall)?;
    match (Form::named(call), Reader::of_call(call)) {
        (Some(form), _) => Ok(view.answer(alloc, form.read(alloc, i).1)?),
        (None, Some(reader)) => Ok(view.answer(alloc, reader.read(alloc, i))?),
        (None, None) => Err(Fault::NoSuchCall),
    }
}
