//! The readers of objects, as values that a row names.
use crate::typed::{read_type_by_ber, read_type_by_der, read_typed_by_ber, read_typed_by_der};
use der_parser::ber::{
    self, HeaderCount, MAX_RECURSION, Tag, parse_ber_any_r, parse_ber_any_with_tag_r,
    parse_ber_bool, parse_ber_counted, parse_ber_integer, parse_ber_recursive, parse_ber_sequence,
    parse_ber_set, parse_ber_with_tag,
};
use der_parser::der::{
    self, parse_der_bool, parse_der_counted, parse_der_integer, parse_der_recursive,
    parse_der_sequence, parse_der_set, parse_der_with_tag, visiblestring,
};
use der_parser::error::BerResult;
use der_parser::{parse_ber, parse_der};
use std::alloc::Global;

/// A reader of objects, with the depth of one that takes a depth.
#[derive(Clone, Copy, Debug)]
pub enum Reader {
    ParseBer,
    BerParseBer,
    ParseBerRecursive(usize),
    ParseBerAnyR(usize),
    ParseBerAnyWithTagR(Tag, usize),
    ParseBerCounted(usize),
    ParseDer,
    DerParseDer,
    ParseDerRecursive(usize),
    ParseDerCounted(usize),
    ParseBerBool,
    ParseBerInteger,
    ParseBerWithTag(Tag),
    ParseBerSequence,
    ParseBerSet,
    ParseDerBool,
    ParseDerInteger,
    ParseDerWithTag(Tag),
    ParseDerSequence,
    ParseDerSet,
    Visiblestring,
    /// The reader of the type that the input's identifier names.
    TypedByBer,
    TypedByDer,
    /// The reader of the type that has this tag.
    TypeByBer(Tag),
    TypeByDer(Tag),
}

impl Reader {
    /// What the reader answers.
    pub fn read<'a>(self, alloc: Global, input: &'a [u8]) -> BerResult<'a> {
        self.read_counted(alloc, input, &mut HeaderCount::new())
    }

    /// What the reader answers, which counts the headers that it reads if it is one that counts.
    pub fn read_counted<'a>(
        self,
        alloc: Global,
        input: &'a [u8],
        count: &mut HeaderCount,
    ) -> BerResult<'a> {
        match self {
            Reader::ParseBer => parse_ber(alloc, input),
            Reader::BerParseBer => ber::parse_ber(alloc, input),
            Reader::ParseBerRecursive(depth) => parse_ber_recursive(alloc, input, depth),
            Reader::ParseBerAnyR(depth) => parse_ber_any_r(alloc, input, depth),
            Reader::ParseBerAnyWithTagR(tag, depth) => {
                parse_ber_any_with_tag_r(alloc, input, tag, depth)
            }
            Reader::ParseBerCounted(depth) => parse_ber_counted(alloc, input, depth, count),
            Reader::ParseDer => parse_der(alloc, input),
            Reader::DerParseDer => der::parse_der(alloc, input),
            Reader::ParseDerRecursive(depth) => parse_der_recursive(alloc, input, depth),
            Reader::ParseDerCounted(depth) => parse_der_counted(alloc, input, depth, count),
            Reader::ParseBerBool => parse_ber_bool(input),
            Reader::ParseBerInteger => parse_ber_integer(input),
            Reader::ParseBerWithTag(tag) => parse_ber_with_tag(alloc, input, tag),
            Reader::ParseBerSequence => parse_ber_sequence(alloc, input),
            Reader::ParseBerSet => parse_ber_set(alloc, input),
            Reader::ParseDerBool => parse_der_bool(input),
            Reader::ParseDerInteger => parse_der_integer(input),
            Reader::ParseDerWithTag(tag) => parse_der_with_tag(alloc, input, tag),
            Reader::ParseDerSequence => parse_der_sequence(alloc, input),
            Reader::ParseDerSet => parse_der_set(alloc, input),
            Reader::Visiblestring => visiblestring(input),
            Reader::TypedByBer => read_typed_by_ber(alloc, input),
            Reader::TypedByDer => read_typed_by_der(alloc, input),
            Reader::TypeByBer(tag) => read_type_by_ber(alloc, tag.0, input),
            Reader::TypeByDer(tag) => read_type_by_der(alloc, tag.0, input),
        }
    }

    /// The depth to which the reader reads.
    pub fn depth(self) -> usize {
        match self {
            Reader::ParseBerRecursive(depth)
            | Reader::ParseBerAnyR(depth)
            | Reader::ParseBerAnyWithTagR(_, depth)
            | Reader::ParseBerCounted(depth)
            | Reader::ParseDerRecursive(depth)
            | Reader::ParseDerCounted(depth) => depth,
            _ => MAX_RECURSION,
        }
    }
}
