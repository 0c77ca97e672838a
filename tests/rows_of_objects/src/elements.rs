//! The rows of elements: inputs, and what readers answer on them. The rows of readers: lists, numbers, DER, counts of
//! headers, and each public name. With the word `trials` in front of the files, what holds of any octets is tried on
//! those of each row.

mod any;
mod containers;
mod contents;
mod headers;
mod numbers;
mod said;

use any::AnyReader;
use containers::ContainerCall;
use contents::ContentReader;
use headers::HeaderReader;
use numbers::NumberCall;
use std::alloc::Global;
use test_support::calls::answer_of_call;
use test_tables::fault::Fault;
use test_tables::run::Calls;

/// The calls of rows of elements.
pub struct Elements;

impl Calls for Elements {
    fn answer(&self, alloc: Global, call: &str, input: &str) -> Result<String, Fault> {
        if let Some(reader) = AnyReader::named(call) {
            return reader.answer(alloc, input);
        }
        if let Some(reader) = HeaderReader::named(call) {
            return reader.answer(alloc, input);
        }
        if let Some(reader) = ContentReader::named(call) {
            return reader.answer(alloc, input);
        }
        if let Some(container) = ContainerCall::of_call(call) {
            return container.answer(alloc, input);
        }
        match NumberCall::of_call(call) {
            Some(number) => number.answer(alloc, input),
            None => answer_of_call(alloc, call, input),
        }
    }
}
