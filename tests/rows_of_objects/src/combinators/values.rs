//! Lists of values by combinators.
ghost use Rattle.std.specs.Prelude.{◌≡◌};

use crate::combinators::names::first_word;
use crate::combinators::own::{OwnResult, own_number, push_own_refused};
use crate::combinators::view::push_calls;
use der_parser::ber::{ListOfValues, Tag, parse_ber_sequence_of_v, parse_ber_set_of_v};
use der_parser::der::{parse_der_sequence_of_v, parse_der_set_of_v};
use der_parser::error::{BerResult, Err as Refused, Needed};
use der_parser::{IResult, Rules};
use test_support::words::{push_number, push_refused, push_rest};
use std::alloc::{AllocError, Global};
use test_tables::fault::Fault;
use test_tables::octets::push_word;

/// The words of what a list of values answers, and of how often its parser is called.
pub fn answer(
    alloc: Global,
    rules: Rules,
    tag: Tag,
    parser: &str,
    i: &[u8],
) -> Result<String, Fault> {
    let (name, words) = first_word(parser);
    match name {
        "own_number" => Ok(own_answer(alloc, numbers(alloc, rules, tag, i))?),
        "own_growing" => Ok(own_answer(alloc, growing_own(alloc, rules, tag, i))?),
        "growing" => Ok(ber_answer(alloc, growing(alloc, rules, tag, i))?),
        "taking" => taking_answer(alloc, rules, tag, words, i),
        _ => Err(Fault::NoSuchCall),
    }
}

/// The parser of a SEQUENCE OF or SET OF values, which `f` reads.
fn list_parser<'a, F, E>(alloc: Global, rules: Rules, tag: Tag, f: F) -> ListOfValues<F>
where
    F: FnMut(&'a [u8]) -> IResult<&'a [u8], u32, E>,
    ensures { result.1 ≡ f }
{
    match (rules, tag) {
        (Rules::Ber, Tag::Sequence) => parse_ber_sequence_of_v(alloc, f),
        (Rules::Ber, _) => parse_ber_set_of_v(alloc, f),
        (Rules::Der, Tag::Sequence) => parse_der_sequence_of_v(alloc, f),
        (Rules::Der, _) => parse_der_set_of_v(alloc, f),
    }
}

/// Reads a list of numbers.
fn numbers(alloc: Global, rules: Rules, tag: Tag, i: &[u8]) -> (u64, OwnResult<'_, Vec<u32>>) {
    let mut calls: u64 = 0;
    let item = |input| {
        calls = calls.saturating_add(1);
        own_number(input)
    };
    let answer = list_parser(alloc, rules, tag, item).parse(i);
    (calls, answer)
}

/// Reads a list by a parser that leaves the whole input.
fn growing_own(alloc: Global, rules: Rules, tag: Tag, i: &[u8]) -> (u64, OwnResult<'_, Vec<u32>>) {
    let mut calls: u64 = 0;
    let item = |_| {
        calls = calls.saturating_add(1);
        Ok((i, 0))
    };
    let answer = list_parser(alloc, rules, tag, item).parse(i);
    (calls, answer)
}

/// The same, with the error type BerError.
fn growing(alloc: Global, rules: Rules, tag: Tag, i: &[u8]) -> (u64, BerResult<'_, Vec<u32>>) {
    let mut calls: u64 = 0;
    let item = |_| {
        calls = calls.saturating_add(1);
        Ok((i, 0))
    };
    let answer = list_parser(alloc, rules, tag, item).parse(i);
    (calls, answer)
}

/// Reads a list by a parser that takes the first number of octets at its first call, the second at its second, and none
/// at its third. Its values are these numbers.
fn taking(
    alloc: Global,
    rules: Rules,
    tag: Tag,
    counts: [u32; 2],
    i: &[u8],
) -> (u64, BerResult<'_, Vec<u32>>) {
    let mut calls: u64 = 0;
    let item = |input| {
        let count = if calls < 2 {
            Some(counts[calls as usize])
        } else {
            None
        };
        calls = calls.saturating_add(1);
        take(count, input)
    };
    let answer = list_parser(alloc, rules, tag, item).parse(i);
    (calls, answer)
}

/// Takes the first octets of `i`, so many where it has them.
fn take(count: Option<u32>, i: &[u8]) -> BerResult<'_, u32> {
    match count {
        Some(n) if n as usize <= i.len() => Ok((&i[n as usize..], n)),
        _ => Err(Refused::Incomplete(Needed::Size(1))),
    }
}

/// The words of what `taking` answers, with the two numbers that these words have.
fn taking_answer(
    alloc: Global,
    rules: Rules,
    tag: Tag,
    words: &str,
    i: &[u8],
) -> Result<String, Fault> {
    let (first, second) = first_word(words);
    match (first.parse(), second.parse()) {
        (Ok(first), Ok(second)) => {
            let given = taking(alloc, rules, tag, [first, second], i);
            Ok(ber_answer(alloc, given)?)
        }
        _ => Err(Fault::NoSuchCall),
    }
}

/// The words of values or of a refusal, and of how often the parser was called.
fn own_answer(alloc: Global, given: (u64, OwnResult<'_, Vec<u32>>)) -> Result<String, AllocError> {
    let mut text = String::new(alloc);
    match &given.1 {
        Ok((rest, values)) => push_values(&mut text, rest, values)?,
        Err(e) => push_own_refused(&mut text, e)?,
    }
    push_calls(&mut text, given.0)?;
    Ok(text)
}

/// The same, with the error type BerError.
fn ber_answer(alloc: Global, given: (u64, BerResult<'_, Vec<u32>>)) -> Result<String, AllocError> {
    let mut text = String::new(alloc);
    match &given.1 {
        Ok((rest, values)) => push_values(&mut text, rest, values)?,
        Err(e) => push_refused(&mut text, e)?,
    }
    push_calls(&mut text, given.0)?;
    Ok(text)
}

/// Adds values that are read, between braces, and what follows them.
fn push_values(text: &mut String, rest: &[u8], values: &[u32]) -> Result<(), AllocError> {
    push_word(text, "read {")?;
    for value in values {
        push_number(text, value)?;
    }
    push_word(text, "}")?;
    push_rest(text, rest)
}
