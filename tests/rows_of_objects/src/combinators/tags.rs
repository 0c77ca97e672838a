//! Objects under explicit and implicit tags, and objects that may be absent, by combinators.
ghost use Rattle.std.specs.Prelude.{◌≡◌};

use crate::combinators::form::Given;
use crate::combinators::kept::Kept;
use der_parser::ber::{
    BerContent, BerObject, BerObjectContent, ExplicitObject, Header, ImplicitObject, Tag,
    parse_ber_content, parse_ber_explicit_optional, parse_ber_implicit, parse_ber_optional,
    parse_ber_tagged_explicit, parse_ber_tagged_implicit,
};
use der_parser::der::{
    parse_der_content, parse_der_explicit_optional, parse_der_implicit, parse_der_optional,
    parse_der_tagged_explicit, parse_der_tagged_implicit,
};
use der_parser::{IResult, Rules};
use std::alloc::Global;

/// Reads an object inside an explicit tag.
pub fn explicit(alloc: Global, rules: Rules, tag: Tag, kept: Kept, i: &[u8]) -> Given<'_> {
    let mut calls: u64 = 0;
    let inner = |input| {
        calls = calls.saturating_add(1);
        kept.read(alloc, i, input)
    };
    let answer = explicit_parser(alloc, rules, tag, inner).parse(i);
    (calls, answer)
}

/// The parser of an object inside an explicit tag, which `f` reads.
fn explicit_parser<'a, F, E>(alloc: Global, rules: Rules, tag: Tag, f: F) -> ExplicitObject<F>
where
    F: FnMut(&'a [u8]) -> IResult<&'a [u8], BerObject<'a>, E>,
    ensures { result.1 ≡ f }
{
    match rules {
        Rules::Ber => parse_ber_tagged_explicit(alloc, tag, f),
        Rules::Der => parse_der_tagged_explicit(alloc, tag, f),
    }
}

/// Reads an object under an implicit tag, of the type of `content`.
pub fn implicit(alloc: Global, rules: Rules, tag: Tag, content: Tag, i: &[u8]) -> Given<'_> {
    let mut calls: u64 = 0;
    let reader = content_reader(alloc, rules, content);
    let inner = |input, header: &Header<'_>, depth| {
        calls = calls.saturating_add(1);
        reader.parse(input, header, depth)
    };
    let answer = implicit_parser(rules, tag, inner).parse(i);
    (calls, answer)
}

/// The parser of an object under an implicit tag, whose content `f` reads.
fn implicit_parser<'a, F, E>(rules: Rules, tag: Tag, f: F) -> ImplicitObject<F>
where
    F: FnMut(&'a [u8], &Header<'a>, usize) -> IResult<&'a [u8], BerObjectContent<'a>, E>,
    ensures { result.1 ≡ f }
{
    match rules {
        Rules::Ber => parse_ber_tagged_implicit(tag, f),
        Rules::Der => parse_der_tagged_implicit(tag, f),
    }
}

/// The reader of contents of the type of this tag.
fn content_reader(alloc: Global, rules: Rules, tag: Tag) -> BerContent {
    match rules {
        Rules::Ber => parse_ber_content(alloc, tag),
        Rules::Der => parse_der_content(alloc, tag),
    }
}

/// Reads as `implicit`, by the function that reads at once.
pub fn implicit_at_once(
    alloc: Global,
    rules: Rules,
    tag: Tag,
    content: Tag,
    i: &[u8],
) -> Given<'_> {
    let mut calls: u64 = 0;
    let reader = content_reader(alloc, rules, content);
    let inner = |input, header: &Header<'_>, depth| {
        calls = calls.saturating_add(1);
        reader.parse(input, header, depth)
    };
    let answer = match rules {
        Rules::Ber => parse_ber_implicit(i, tag, inner),
        Rules::Der => parse_der_implicit(i, tag, inner),
    };
    (calls, answer)
}

/// Reads an object that may be absent.
pub fn optional(alloc: Global, rules: Rules, kept: Kept, i: &[u8]) -> Given<'_> {
    let mut calls: u64 = 0;
    let inner = |input| {
        calls = calls.saturating_add(1);
        kept.read(alloc, i, input)
    };
    let answer = match rules {
        Rules::Ber => parse_ber_optional(alloc, inner).parse(i),
        Rules::Der => parse_der_optional(alloc, inner).parse(i),
    };
    (calls, answer)
}

/// Reads an object that may be absent, inside an explicit tag.
pub fn explicit_optional(alloc: Global, rules: Rules, tag: Tag, kept: Kept, i: &[u8]) -> Given<'_> {
    let mut calls: u64 = 0;
    let inner = |input| {
        calls = calls.saturating_add(1);
        kept.read(alloc, i, input)
    };
    let answer = match rules {
        Rules::Ber => parse_ber_explicit_optional(alloc, i, tag, inner),
        Rules::Der => parse_der_explicit_optional(alloc, i, tag, inner),
    };
    (calls, answer)
}
