//! The combinators that keep a parser, and what they hand to it.
use der_parser::IResult;
use der_parser::ber::{
    Container, Header, NumberedContainer, Tag, parse_ber_container, parse_ber_sequence_defined_g,
    parse_ber_set_defined_g, parse_ber_slice,
};
use der_parser::error::BerError;
use test_support::octets::octets;
use test_support::words::{answer_of, push_header, push_number, push_refused, push_rest};
use std::alloc::{AllocError, Global};
use test_tables::fault::Fault;
use test_tables::octets::{push_octets, push_word};

/// A combinator that keeps a parser, or the reader of the content of a tag number.
#[derive(Clone, Copy)]
pub enum ContainerCall {
    Container,
    SequenceDefined,
    SetDefined,
    Slice(Tag),
}

/// What a parser was given, and what it left behind the element.
type Given<'a> = IResult<&'a [u8], (&'a [u8], Header<'a>), BerError>;

impl ContainerCall {
    /// The combinator that a call names, with the tag number that it takes.
    pub fn of_call(call: &str) -> Option<ContainerCall> {
        match call {
            "parse_ber_container" => Some(ContainerCall::Container),
            "parse_ber_sequence_defined_g" => Some(ContainerCall::SequenceDefined),
            "parse_ber_set_defined_g" => Some(ContainerCall::SetDefined),
            call => {
                let number = call.strip_prefix("parse_ber_slice ")?.parse().ok()?;
                Some(ContainerCall::Slice(Tag(number)))
            }
        }
    }

    /// What the combinator answers.
    pub fn answer(self, alloc: Global, input: &str) -> Result<String, Fault> {
        let input = octets(alloc, input)?;
        Ok(self.answer_on(alloc, &input)?)
    }

    fn answer_on(self, alloc: Global, input: &[u8]) -> Result<String, AllocError> {
        match self {
            ContainerCall::Container => text_of(alloc, container(input)),
            ContainerCall::SequenceDefined => text_of(alloc, sequence(input)),
            ContainerCall::SetDefined => text_of(alloc, set(input)),
            ContainerCall::Slice(tag) => answer_of(alloc, parse_ber_slice(input, tag)),
        }
    }
}

/// How often a container calls its parser, and what it answers.
fn container(i: &[u8]) -> (u64, Given<'_>) {
    let mut calls: u64 = 0;
    let mut parser: Container<_> = parse_ber_container(|content, header| {
        calls = calls.saturating_add(1);
        Ok((content, (content, header)))
    });
    let given = parser.parse(i);
    (calls, given)
}

/// How often the parser of a SEQUENCE's content is called, and what is answered.
fn sequence(i: &[u8]) -> (u64, Given<'_>) {
    let mut calls: u64 = 0;
    let mut parser: NumberedContainer<_> = parse_ber_sequence_defined_g(|content, header| {
        calls = calls.saturating_add(1);
        Ok((content, (content, header)))
    });
    let given = parser.parse(i);
    (calls, given)
}

/// How often the parser of a SET's content is called, and what is answered.
fn set(i: &[u8]) -> (u64, Given<'_>) {
    let mut calls: u64 = 0;
    let mut parser: NumberedContainer<_> = parse_ber_set_defined_g(|content, header| {
        calls = calls.saturating_add(1);
        Ok((content, (content, header)))
    });
    let given = parser.parse(i);
    (calls, given)
}

/// The words of what is answered, and how often the parser was called if that isn't once where an
/// answer is read, and never elsewhere.
fn text_of(alloc: Global, called: (u64, Given<'_>)) -> Result<String, AllocError> {
    let (calls, given) = called;
    let mut text = String::new(alloc);
    push_given(&mut text, &given)?;
    if calls != u64::from(given.is_ok()) {
        push_word(&mut text, "called")?;
        push_number(&mut text, calls)?;
    }
    Ok(text)
}

fn push_given(text: &mut String, given: &Given<'_>) -> Result<(), AllocError> {
    match given {
        Ok((rest, (content, header))) => {
            push_word(text, "read")?;
            push_header(text, header)?;
            push_word(text, "content")?;
            push_octets(text, content)?;
            push_rest(text, rest)
        }
        Err(e) => push_refused(text, e),
    }
}
