//! Texts of elements: the octets of a text, the text of octets, and the texts of damaged octets. In a row `/` is the
//! end of a line.

use der_text::{octets_of, text_of};
use std::alloc::{AllocError, Global};
use test_tables::fault::Fault;
use test_tables::octets::{octets, push_octets};

/// How many damaged copies are tried of an input.
const COPIES: usize = 100;

/// What a call on the text of elements answers, if it is one.
pub fn answer(alloc: Global, call: &str, input: &str) -> Result<Option<String>, Fault> {
    Ok(Some(match call {
        "octets_of" => octets_text(alloc, input)?,
        "text_of" => shown_text(alloc, &octets(alloc, input)?)?,
        "damaged" => damaged(alloc, &octets(alloc, input)?)?,
        _ => return Ok(None),
    }))
}

/// The octets of a text, or the error.
fn octets_text(alloc: Global, input: &str) -> Result<String, Fault> {
    let mut text = Vec::new(alloc);
    for octet in input.as_bytes() {
        text.push(if *octet == b'/' { b'\n' } else { *octet })?;
    }
    let mut shown = String::new(alloc);
    match octets_of(alloc, &text) {
        Ok(octets) if !comes_back(alloc, &octets)? => write!(shown, "another text")?,
        Ok(octets) => push_octets(&mut shown, &octets)?,
        Err(error) => write!(shown, "{error}")?,
    }
    Ok(format!(in alloc; "{}", shown.trim())?)
}

/// The text of octets. A space that begins a line is shown as `>`.
fn shown_text(alloc: Global, octets: &[u8]) -> Result<String, Fault> {
    let text = text_of(alloc, octets)?;
    let mut shown = String::new(alloc);
    let mut begins = true;
    for octet in &text {
        begins = *octet == b'\n' || begins && *octet == b' ';
        let character = match *octet {
            b'\n' => '/',
            b' ' if begins => '>',
            other => char::from(other),
        };
        shown.push(character)?;
    }
    Ok(shown)
}

/// Whether the octets of the text of octets are these.
fn comes_back(alloc: Global, octets: &[u8]) -> Result<bool, AllocError> {
    let text = text_of(alloc, octets)?;
    match octets_of(alloc, &text) {
        Ok(again) => Ok(again.as_slice() == octets),
        Err(_) => Ok(false),
    }
}

/// How many damaged copies of octets come back from their texts.
fn damaged(alloc: Global, octets: &[u8]) -> Result<String, Fault> {
    let mut same = 0u32;
    let mut number = 1u64;
    for round in 0..COPIES {
        number = number.wrapping_mul(6364136223846793005).wrapping_add(1442695040888963407);
        let copy = damaged_copy(alloc, octets, round % 4, number >> 33)?;
        if comes_back(alloc, &copy)? {
            same = same.saturating_add(1);
        }
    }
    Ok(format!(in alloc; "{same} same")?)
}

/// Octets of which one is another one, is left out, or comes twice, or which are cut.
fn damaged_copy(
    alloc: Global,
    octets: &[u8],
    kind: usize,
    number: u64,
) -> Result<Vec<u8>, AllocError> {
    let offset = number as usize / 256 % octets.len().max(1);
    let (before, after) = octets.split_at(offset.min(octets.len()));
    let mut copy = Vec::from_slice(alloc, before)?;
    match (kind, after) {
        (0, [_, rest @ ..]) => {
            copy.push((number % 256) as u8)?;
            copy.extend_from_slice(rest)?;
        }
        (1, [_, rest @ ..]) => copy.extend_from_slice(rest)?,
        (2, [octet, ..]) => {
            copy.push(*octet)?;
            copy.extend_from_slice(after)?;
        }
        _ => {}
    }
    Ok(copy)
}
