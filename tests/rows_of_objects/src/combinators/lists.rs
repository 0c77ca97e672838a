//! Lists of objects by combinators.
ghost use Rattle.std.specs.Prelude.{◌≡◌};

use crate::combinators::form::Given;
use crate::combinators::kept::Kept;
use der_parser::ber::{
    BerObject, ListObject, ListOfObjects, Tag, parse_ber_sequence_defined, parse_ber_sequence_of,
    parse_ber_set_defined, parse_ber_set_of,
};
use der_parser::der::{
    parse_der_sequence_defined, parse_der_sequence_of, parse_der_set_defined, parse_der_set_of,
};
use der_parser::error::{BerError, BerResult};
use der_parser::{IResult, Rules};
use std::alloc::Global;

/// What a list of objects of one type answers.
pub fn list_of(alloc: Global, rules: Rules, tag: Tag, kept: Kept, i: &[u8]) -> Given<'_> {
    let mut calls: u64 = 0;
    let item = |input| {
        calls = calls.saturating_add(1);
        kept.read(alloc, i, input)
    };
    let answer = list_parser(alloc, rules, tag, item).parse(i);
    (calls, answer)
}

/// The parser of a SEQUENCE OF or SET OF what `f` reads.
fn list_parser<'a, F, E>(alloc: Global, rules: Rules, tag: Tag, f: F) -> ListOfObjects<F>
where
    F: FnMut(&'a [u8]) -> IResult<&'a [u8], BerObject<'a>, E>,
    ensures { result.1 ≡ f }
{
    match (rules, tag) {
        (Rules::Ber, Tag::Sequence) => parse_ber_sequence_of(alloc, f),
        (Rules::Ber, _) => parse_ber_set_of(alloc, f),
        (Rules::Der, Tag::Sequence) => parse_der_sequence_of(alloc, f),
        (Rules::Der, _) => parse_der_set_of(alloc, f),
    }
}

/// What a list of two objects answers.
pub fn list_of_two(alloc: Global, rules: Rules, tag: Tag, kept: Kept, i: &[u8]) -> Given<'_> {
    let mut calls: u64 = 0;
    let items = |input| {
        calls = calls.saturating_add(1);
        read_two(alloc, kept, input)
    };
    let answer = defined_parser(rules, tag, items).parse(i);
    (calls, answer)
}

/// The parser of a SEQUENCE or SET whose items `f` reads.
fn defined_parser<'a, F, E>(rules: Rules, tag: Tag, f: F) -> ListObject<F>
where
    F: FnMut(&'a [u8]) -> IResult<&'a [u8], Vec<BerObject<'a>>, E>,
    ensures { result.1 ≡ f }
{
    match (rules, tag) {
        (Rules::Ber, Tag::Sequence) => parse_ber_sequence_defined(f),
        (Rules::Ber, _) => parse_ber_set_defined(f),
        (Rules::Der, Tag::Sequence) => parse_der_sequence_defined(f),
        (Rules::Der, _) => parse_der_set_defined(f),
    }
}

/// Two objects.
fn read_two<'a>(
    alloc: Global,
    kept: Kept,
    i: &'a [u8],
) -> IResult<&'a [u8], Vec<BerObject<'a>>, BerError> {
    let (rest, first) = kept.read(alloc, i, i)?;
    two_of(alloc, first, kept.read(alloc, i, rest))
}

/// A list of an object and of another, which was read after it.
fn two_of<'a>(
    alloc: Global,
    first: BerObject<'a>,
    second: BerResult<'a>,
) -> IResult<&'a [u8], Vec<BerObject<'a>>, BerError> {
    let (rest, second) = second?;
    let mut items = Vec::new(alloc);
    items.push(first)?;
    items.push(second)?;
    Ok((rest, items))
}
