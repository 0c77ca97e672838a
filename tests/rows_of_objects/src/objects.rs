//! The rows of objects: their parts, items, copies and equality, their texts, the octets that are
//! written of them, and the calls that they are visited by.

mod accessors;
mod encoder;
mod objects_from_words;
mod pairs;
mod printer;
mod question;
mod visits;
mod watcher;

use crate::objects::question::Question;
use der_parser::ber::parse_ber;
use der_parser::error::BerResult;
use test_support::words::push_refused;
use std::alloc::Global;
use test_tables::fault::Fault;
use test_tables::octets::octets;
use test_tables::run::Calls;
use test_tables::table::written_out;

pub struct Objects;

impl Calls for Objects {
    fn answer(&self, alloc: Global, call: &str, input: &str) -> Result<String, Fault> {
        match call {
            "==" | "is_equal" => pairs::answer(alloc, call, input),
            "ber_object_from_any" => pairs::object_from_any(alloc, &octets(alloc, input)?),
            "ber_encode_header" => encoder::header_of_input(alloc, input),
            call => answer_of_object(alloc, call, input),
        }
    }
}

/// What is answered of the object that an input spells, as octets or after `made` as words.
fn answer_of_object(alloc: Global, call: &str, input: &str) -> Result<String, Fault> {
    let words: Vec<&str> = call.split_ascii_whitespace().collect(alloc)?;
    let question = Question::of_words(&words).ok_or(Fault::NoSuchCall)?;
    match input.strip_prefix("made ") {
        Some(words) => answer_of_made(alloc, question, &written_out(alloc, words)?),
        None => answer_of_octets(alloc, question, &octets(alloc, input)?),
    }
}

fn answer_of_made(alloc: Global, question: Question, text: &str) -> Result<String, Fault> {
    let words: Vec<&str> = text.split_ascii_whitespace().collect(alloc)?;
    let octets = objects_from_words::octets_of(alloc, &words)?;
    question.answer(alloc, objects_from_words::object(alloc, &words, &octets)?)
}

fn answer_of_octets(alloc: Global, question: Question, input: &[u8]) -> Result<String, Fault> {
    answer_of_read(alloc, question, parse_ber(alloc, input))
}

fn answer_of_read(alloc: Global, question: Question, read: BerResult<'_>) -> Result<String, Fault> {
    match read {
        Ok((_, object)) => question.answer(alloc, object),
        Err(e) => {
            let mut text = String::new(alloc);
            push_refused(&mut text, &e)?;
            Ok(text)
        }
    }
}
