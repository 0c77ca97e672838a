//! What holds of the fronts of any octets, read by BER and by DER: a refusal stands whatever follows,
//! what follows an object is left behind it, and each shorter front of an object is cut short.
use crate::octets::octets;
use crate::reader::Reader;
use crate::reader::Reader::{ParseBerRecursive, ParseDerRecursive};
use crate::wrong::Wrong;
use der_parser::error::{BerResult, Err as Refused};
use std::alloc::{AllocError, Global};

/// The depths to which fronts are read.
pub const DEPTHS: &[usize] = &[0, 1, 2, 50];

/// Both readers, to each depth, answer on the fronts of these octets as the module says.
pub fn expect_stable_fronts(alloc: Global, text: &str) -> Result<(), Wrong> {
    for depth in DEPTHS {
        expect_stable_to(alloc, *depth, text)?;
    }
    Ok(())
}

/// Both readers, to this depth, answer on the fronts of these octets as the module says.
fn expect_stable_to(alloc: Global, depth: usize, text: &str) -> Result<(), Wrong> {
    let input = octets(alloc, text)?;
    expect_stable(alloc, ParseBerRecursive(depth), &input)?;
    expect_stable(alloc, ParseDerRecursive(depth), &input)
}

/// The most octets of an input whose every front is tried, from each of its ends.
const NEAR: usize = 256;

/// Whether a front of this length is tried: of a long input only those that end near one of its ends, since those
/// between are alike.
fn is_tried(length: usize, all: usize) -> bool {
    length <= NEAR || all - length <= NEAR
}

/// The reader answers on the fronts of these octets as the module says. Fronts are read from the
/// shortest on, so as many are cut short in front of an object as it has octets.
fn expect_stable(alloc: Global, reader: Reader, input: &[u8]) -> Result<(), Wrong> {
    let mut cut: usize = 0;
    let mut was_cut = false;
    for length in 0..=input.len() {
        if is_tried(length, input.len()) {
            was_cut = is_cut(alloc, reader, &input[..length], cut)?;
        }
        if was_cut {
            cut += 1;
        }
    }
    Ok(())
}

/// What a reader answers on a front, as far as fronts are compared.
#[derive(Clone, Copy)]
enum Shown {
    /// It is cut short.
    Cut,
    /// It begins with an object, and so many octets are left.
    Read(usize),
    /// It is refused.
    Refused,
}

/// Whether a front is cut short. The reader answers on it as the module says, where so many shorter
/// ones are cut short.
fn is_cut(alloc: Global, reader: Reader, front: &[u8], cut: usize) -> Result<bool, Wrong> {
    let ended = followed(alloc, front, b"\x00\x00")?;
    let refused = followed(alloc, front, b"\xff")?;
    let opened = followed(alloc, front, b"\x30\x80")?;
    match expect_stands(alloc, reader, front, &ended, &refused, &opened)? {
        Shown::Cut => Ok(true),
        Shown::Refused => Ok(false),
        Shown::Read(left) => {
            if cut.checked_add(left) == Some(front.len()) {
                return Ok(false);
            }
            let wrong = format!(in alloc; "{reader:?} of {front:?}: {left} left")?;
            Err(Wrong::Answer(wrong))
        }
    }
}

/// A front and octets behind it.
fn followed(alloc: Global, front: &[u8], tail: &[u8]) -> Result<Vec<u8>, AllocError> {
    let mut octets = Vec::new(alloc);
    octets.extend_from_slice(front)?;
    octets.extend_from_slice(tail)?;
    Ok(octets)
}

/// What the reader answers on a front. It stands with octets behind the front.
fn expect_stands<'a>(
    alloc: Global,
    reader: Reader,
    front: &'a [u8],
    ended: &'a [u8],
    refused: &'a [u8],
    opened: &'a [u8],
) -> Result<Shown, Wrong> {
    let given = reader.read(alloc, front);
    expect_same(alloc, reader, &given, front, ended)?;
    expect_same(alloc, reader, &given, front, refused)?;
    expect_same(alloc, reader, &given, front, opened)?;
    Ok(shown_by(&given))
}

fn shown_by(given: &BerResult<'_>) -> Shown {
    match given {
        Ok((rest, _)) => Shown::Read(rest.len()),
        Err(Refused::Incomplete(_)) => Shown::Cut,
        Err(_) => Shown::Refused,
    }
}

/// What the reader answers on a front stands for an input that begins with it.
fn expect_same<'a>(
    alloc: Global,
    reader: Reader,
    given: &BerResult<'a>,
    front: &'a [u8],
    input: &'a [u8],
) -> Result<(), Wrong> {
    let again = reader.read(alloc, input);
    if stands(given, &again, front, input) {
        return Ok(());
    }
    let wrong = format!(in alloc; "{reader:?} of {front:?}, {input:?}: {given:?}, {again:?}")?;
    Err(Wrong::Answer(wrong))
}

/// Whether the answer on a front stands for an input that begins with it. One of a front that is cut
/// short may become any but a failure.
fn stands<'a>(
    given: &BerResult<'a>,
    again: &BerResult<'a>,
    front: &'a [u8],
    input: &'a [u8],
) -> bool {
    match (given, again) {
        (Ok((rest, object)), Ok((left, same))) => {
            object == same && is_behind_both(front, input, rest, left)
        }
        (Err(Refused::Error(e)), Err(Refused::Error(f))) => e == f,
        (Err(Refused::Incomplete(_)), Ok(_)) => true,
        (Err(Refused::Incomplete(_)), Err(Refused::Incomplete(_) | Refused::Error(_))) => true,
        _ => false,
    }
}

/// Whether the same stands behind a front in an input as behind a rest in what is left.
fn is_behind_both(front: &[u8], input: &[u8], rest: &[u8], left: &[u8]) -> bool {
    match (input.strip_prefix(front), left.strip_prefix(rest)) {
        (Some(tail), Some(behind)) => tail == behind,
        _ => false,
    }
}
