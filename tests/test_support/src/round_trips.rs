//! What holds between reading and writing, and between BER and DER, on the inputs of all rows.
use crate::octets::octets;
use crate::reader::Reader::{ParseBerRecursive, ParseDerRecursive};
use crate::wrong::Wrong;
use der_parser::ber::{BerObject, FaultWriter, ber_encode_object};
use der_parser::error::GenError;
use std::alloc::Global;

/// Where BER reads an object, it reads the encoding of it as an equal one, to the same depth. Where
/// DER reads an object, BER reads an equal one, and leaves the same.
pub fn expect_round_trip(alloc: Global, depth: usize, text: &str) -> Result<(), Wrong> {
    let input = octets(alloc, text)?;
    if let Some(encoding) = encoding_of(alloc, depth, &input)? {
        expect_read_alike(alloc, depth, &input, &encoding)?;
    }
    expect_read_by_both(alloc, depth, &input)
}

/// The encoding of the object that BER reads.
fn encoding_of(alloc: Global, depth: usize, input: &[u8]) -> Result<Option<Vec<u8>>, GenError> {
    match ParseBerRecursive(depth).read(alloc, input) {
        Ok((_rest, object)) => Ok(Some(object.to_vec(alloc)?)),
        Err(_) => Ok(None),
    }
}

/// BER reads an object of the input, and an equal one of the encoding, the whole of it.
fn expect_read_alike<'a>(
    alloc: Global,
    depth: usize,
    input: &'a [u8],
    encoding: &'a [u8],
) -> Result<(), Wrong> {
    let (_, object) = ParseBerRecursive(depth).read(alloc, input)?;
    expect_object(alloc, depth, encoding, b"", &object)?;
    expect_written(alloc, &object, encoding)
}

/// BER reads this object of the input, and leaves this rest.
fn expect_object<'a>(
    alloc: Global,
    depth: usize,
    input: &'a [u8],
    rest: &[u8],
    object: &BerObject<'a>,
) -> Result<(), Wrong> {
    let (left, again) = ParseBerRecursive(depth).read(alloc, input)?;
    if left == rest && again == *object {
        return Ok(());
    }
    let wrong = format!(in alloc; "{input:?} to {depth}: {again:?}, and not {object:?}")?;
    Err(Wrong::Answer(wrong))
}

/// The encoding is what is written over a writer.
fn expect_written(alloc: Global, object: &BerObject<'_>, encoding: &[u8]) -> Result<(), Wrong> {
    let mut w = FaultWriter::new(Vec::new(alloc));
    ber_encode_object(&mut w, object)?;
    if w.into_inner().as_slice() == encoding {
        return Ok(());
    }
    let wrong = format!(in alloc; "{object:?} isn't written as {encoding:?}")?;
    Err(Wrong::Answer(wrong))
}

/// Where DER reads an object, BER reads an equal one, and leaves the same.
fn expect_read_by_both(alloc: Global, depth: usize, input: &[u8]) -> Result<(), Wrong> {
    let Ok((rest, object)) = ParseDerRecursive(depth).read(alloc, input) else {
        return Ok(());
    };
    expect_object(alloc, depth, input, rest, &object)
}
