//! Types by name: each public type of `der_parser` that a constructor or a call returns is named here
//! by its path. Under another type's name a function doesn't compile.
use der_parser::ber::{self, BerObject, BerObjectContent, BerObjectRefIterator, Header, Tag};
use der_parser::cursor::{Cursor, ReadError};
use der_parser::error::{BerError, BerResult};
use der_parser::nodes::{Element, Node, Nodes, Preorder, Trees, Value};
use der_parser::{IResult, der};
use std::alloc::Global;

fn ber_container<'a, F, O, E>(f: F) -> ber::Container<F>
where
    F: FnMut(&'a [u8], Header<'a>) -> IResult<&'a [u8], O, E>,
{
    ber::parse_ber_container(f)
}

fn ber_sequence_defined_g<'a, F, O, E>(f: F) -> ber::NumberedContainer<F>
where
    F: FnMut(&'a [u8], Header<'a>) -> IResult<&'a [u8], O, E>,
{
    ber::parse_ber_sequence_defined_g(f)
}

fn ber_set_defined_g<'a, F, O, E>(f: F) -> ber::NumberedContainer<F>
where
    F: FnMut(&'a [u8], Header<'a>) -> IResult<&'a [u8], O, E>,
{
    ber::parse_ber_set_defined_g(f)
}

fn ber_sequence_of_v<'a, F, O, E>(alloc: Global, f: F) -> ber::ListOfValues<F>
where
    F: FnMut(&'a [u8]) -> IResult<&'a [u8], O, E>,
{
    ber::parse_ber_sequence_of_v(alloc, f)
}

fn ber_set_of_v<'a, F, O, E>(alloc: Global, f: F) -> ber::ListOfValues<F>
where
    F: FnMut(&'a [u8]) -> IResult<&'a [u8], O, E>,
{
    ber::parse_ber_set_of_v(alloc, f)
}

fn ber_sequence_of<'a, F, E>(alloc: Global, f: F) -> ber::ListOfObjects<F>
where
    F: FnMut(&'a [u8]) -> IResult<&'a [u8], BerObject<'a>, E>,
{
    ber::parse_ber_sequence_of(alloc, f)
}

fn ber_set_of<'a, F, E>(alloc: Global, f: F) -> ber::ListOfObjects<F>
where
    F: FnMut(&'a [u8]) -> IResult<&'a [u8], BerObject<'a>, E>,
{
    ber::parse_ber_set_of(alloc, f)
}

fn ber_sequence_defined<'a, F, E>(f: F) -> ber::ListObject<F>
where
    F: FnMut(&'a [u8]) -> IResult<&'a [u8], Vec<BerObject<'a>>, E>,
{
    ber::parse_ber_sequence_defined(f)
}

fn ber_set_defined<'a, F, E>(f: F) -> ber::ListObject<F>
where
    F: FnMut(&'a [u8]) -> IResult<&'a [u8], Vec<BerObject<'a>>, E>,
{
    ber::parse_ber_set_defined(f)
}

fn ber_tagged_explicit_g<'a, F, O, E>(tag: Tag, f: F) -> ber::ExplicitContainer<F>
where
    F: FnMut(&'a [u8], Header<'a>) -> IResult<&'a [u8], O, E>,
{
    ber::parse_ber_tagged_explicit_g(tag, f)
}

fn ber_tagged_implicit_g<'a, F, O, E>(tag: Tag, f: F) -> ber::ImplicitContainer<F>
where
    F: FnMut(&'a [u8], Header<'a>, usize) -> IResult<&'a [u8], O, E>,
{
    ber::parse_ber_tagged_implicit_g(tag, f)
}

fn ber_tagged_explicit<'a, F, E>(alloc: Global, tag: Tag, f: F) -> ber::ExplicitObject<F>
where
    F: FnMut(&'a [u8]) -> IResult<&'a [u8], BerObject<'a>, E>,
{
    ber::parse_ber_tagged_explicit(alloc, tag, f)
}

fn ber_tagged_implicit<'a, F, E>(tag: Tag, f: F) -> ber::ImplicitObject<F>
where
    F: FnMut(&'a [u8], &Header<'a>, usize) -> IResult<&'a [u8], BerObjectContent<'a>, E>,
{
    ber::parse_ber_tagged_implicit(tag, f)
}

fn ber_optional<'a, F, E>(alloc: Global, f: F) -> ber::OptionalObject<F>
where
    F: FnMut(&'a [u8]) -> IResult<&'a [u8], BerObject<'a>, E>,
{
    ber::parse_ber_optional(alloc, f)
}

fn der_container<'a, F, O, E>(f: F) -> der::Container<F>
where
    F: FnMut(&'a [u8], Header<'a>) -> IResult<&'a [u8], O, E>,
{
    der::parse_der_container(f)
}

fn der_sequence_defined_g<'a, F, O, E>(f: F) -> der::NumberedContainer<F>
where
    F: FnMut(&'a [u8], Header<'a>) -> IResult<&'a [u8], O, E>,
{
    der::parse_der_sequence_defined_g(f)
}

fn der_set_defined_g<'a, F, O, E>(f: F) -> der::NumberedContainer<F>
where
    F: FnMut(&'a [u8], Header<'a>) -> IResult<&'a [u8], O, E>,
{
    der::parse_der_set_defined_g(f)
}

fn der_sequence_of_v<'a, F, O, E>(alloc: Global, f: F) -> der::ListOfValues<F>
where
    F: FnMut(&'a [u8]) -> IResult<&'a [u8], O, E>,
{
    der::parse_der_sequence_of_v(alloc, f)
}

fn der_set_of_v<'a, F, O, E>(alloc: Global, f: F) -> der::ListOfValues<F>
where
    F: FnMut(&'a [u8]) -> IResult<&'a [u8], O, E>,
{
    der::parse_der_set_of_v(alloc, f)
}

fn der_sequence_of<'a, F, E>(alloc: Global, f: F) -> der::ListOfObjects<F>
where
    F: FnMut(&'a [u8]) -> IResult<&'a [u8], BerObject<'a>, E>,
{
    der::parse_der_sequence_of(alloc, f)
}

fn der_set_of<'a, F, E>(alloc: Global, f: F) -> der::ListOfObjects<F>
where
    F: FnMut(&'a [u8]) -> IResult<&'a [u8], BerObject<'a>, E>,
{
    der::parse_der_set_of(alloc, f)
}

fn der_sequence_defined<'a, F, E>(f: F) -> der::ListObject<F>
where
    F: FnMut(&'a [u8]) -> IResult<&'a [u8], Vec<BerObject<'a>>, E>,
{
    der::parse_der_sequence_defined(f)
}

fn der_set_defined<'a, F, E>(f: F) -> der::ListObject<F>
where
    F: FnMut(&'a [u8]) -> IResult<&'a [u8], Vec<BerObject<'a>>, E>,
{
    der::parse_der_set_defined(f)
}

fn der_tagged_explicit_g<'a, F, O, E>(tag: Tag, f: F) -> der::ExplicitContainer<F>
where
    F: FnMut(&'a [u8], Header<'a>) -> IResult<&'a [u8], O, E>,
{
    der::parse_der_tagged_explicit_g(tag, f)
}

fn der_tagged_implicit_g<'a, F, O, E>(tag: Tag, f: F) -> der::ImplicitContainer<F>
where
    F: FnMut(&'a [u8], Header<'a>, usize) -> IResult<&'a [u8], O, E>,
{
    der::parse_der_tagged_implicit_g(tag, f)
}

fn der_tagged_explicit<'a, F, E>(alloc: Global, tag: Tag, f: F) -> der::ExplicitObject<F>
where
    F: FnMut(&'a [u8]) -> IResult<&'a [u8], BerObject<'a>, E>,
{
    der::parse_der_tagged_explicit(alloc, tag, f)
}

fn der_tagged_implicit<'a, F, E>(tag: Tag, f: F) -> der::ImplicitObject<F>
where
    F: FnMut(&'a [u8], &Header<'a>, usize) -> IResult<&'a [u8], BerObjectContent<'a>, E>,
{
    der::parse_der_tagged_implicit(tag, f)
}

fn der_optional<'a, F, E>(alloc: Global, f: F) -> der::OptionalObject<F>
where
    F: FnMut(&'a [u8]) -> IResult<&'a [u8], BerObject<'a>, E>,
{
    der::parse_der_optional(alloc, f)
}

fn items<'r, 'a>(object: &'r BerObject<'a>) -> BerObjectRefIterator<'r, 'a> {
    object.ref_iter()
}

fn cursor(input: &[u8]) -> Cursor<'_> {
    Cursor::new(input)
}

fn elements<'b, 'a>(input: &'a [u8], elements: &'b [Element]) -> Nodes<'b, 'a> {
    Nodes::new(input, elements)
}

fn root<'b, 'a>(nodes: &Nodes<'b, 'a>) -> Option<Node<'b, 'a>> {
    nodes.root()
}

fn preorder<'b, 'a>(nodes: &Nodes<'b, 'a>) -> Preorder<'b, 'a> {
    nodes.iter()
}

fn trees<'b, 'a>(nodes: &Nodes<'b, 'a>) -> Trees<'b, 'a> {
    nodes.trees()
}

fn value<'a>(node: &Node<'_, 'a>) -> Result<Value<'a>, BerError> {
    node.value()
}
