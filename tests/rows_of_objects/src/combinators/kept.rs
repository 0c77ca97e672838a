//! Parsers of objects that combinators keep.
use der_parser::ber::{
    BerObject, BerObjectContent, Tag, parse_ber_integer, parse_ber_tagged_explicit,
};
use der_parser::der::{parse_der_integer, parse_der_set_of};
use der_parser::error::{BerError, BerResult, Err as Refused};
use test_support::reader::Reader;
use std::alloc::Global;

/// A parser of an object.
#[derive(Clone, Copy)]
pub enum Kept {
    Reader(Reader),
    /// The parser by DER of a SET OF INTEGER.
    SetOfInteger,
    /// The parser by BER of an INTEGER inside an explicit tag of this number.
    ExplicitInteger(Tag),
    /// One that leaves what it is given.
    Staying,
    /// One that leaves the whole input of the combinator.
    Growing,
    /// One that wants memory before a NULL, and else always answers a Failure.
    Refusing,
}

impl Kept {
    /// The parser that a call's words name.
    pub fn named(words: &str) -> Option<Kept> {
        match words {
            "parse_der_set_of parse_der_integer" => Some(Kept::SetOfInteger),
            "parse_ber_tagged_explicit 0 parse_ber_integer" => Some(Kept::ExplicitInteger(Tag(0))),
            "staying" => Some(Kept::Staying),
            "growing" => Some(Kept::Growing),
            "refusing" => Some(Kept::Refusing),
            _ => Reader::of_call(words).map(Kept::Reader),
        }
    }

    /// The parser that a call's words name after `two`.
    pub fn twice(words: &str) -> Option<Kept> {
        Kept::named(words.strip_prefix("two ")?)
    }

    /// What the parser answers on `i`, where `whole` is the input of the combinator.
    pub fn read<'a>(self, alloc: Global, whole: &'a [u8], i: &'a [u8]) -> BerResult<'a> {
        match self {
            Kept::Reader(reader) => reader.read(alloc, i),
            Kept::SetOfInteger => set_of_integer(alloc, i),
            Kept::ExplicitInteger(tag) => explicit_integer(alloc, tag, i),
            Kept::Staying => leave(i),
            Kept::Growing => leave(whole),
            Kept::Refusing => refuse(i),
        }
    }
}

/// Reads a SET OF INTEGER by DER.
fn set_of_integer(alloc: Global, i: &[u8]) -> BerResult<'_> {
    parse_der_set_of(alloc, read_integer).parse(i)
}

fn read_integer(i: &[u8]) -> BerResult<'_> {
    parse_der_integer(i)
}

/// Reads an INTEGER inside an explicit tag by BER.
fn explicit_integer(alloc: Global, tag: Tag, i: &[u8]) -> BerResult<'_> {
    parse_ber_tagged_explicit(alloc, tag, read_ber_integer).parse(i)
}

fn read_ber_integer(i: &[u8]) -> BerResult<'_> {
    parse_ber_integer(i)
}

/// Answers a NULL, and leaves these octets.
fn leave(i: &[u8]) -> BerResult<'_> {
    Ok((i, BerObject::from_obj(BerObjectContent::Null)))
}

/// Wants memory before a NULL, and else answers a Failure.
fn refuse(i: &[u8]) -> BerResult<'_> {
    match i {
        [5, ..] => Err(Refused::OutOfMemory),
        _ => Err(Refused::Failure(BerError::BerTypeError)),
    }
}
