//! The canonical encoding of elements.
use der_canon::{CanonError, canonical, canonical_into};
use test_words::push_number;
use std::alloc::{AllocError, Global};
use crate::nodes::walks::push_path;
use test_tables::fault::Fault;
use test_tables::octets::{push_octets, push_word};

/// The octet that a buffer is filled with.
const FILL: u8 = 0x55;

/// What is written, or the offset of the element that is refused.
pub fn written(alloc: Global, input: &[u8]) -> Result<String, Fault> {
    let text = match canonical(alloc, input) {
        Ok(octets) => read_text(alloc, &octets)?,
        Err(e) => refused_text(alloc, e)?,
    };
    Ok(text)
}

/// Why nothing is written: the offset, the path and the cause.
pub fn refused(alloc: Global, input: &[u8]) -> Result<String, Fault> {
    let text = match canonical(alloc, input) {
        Ok(octets) => read_text(alloc, &octets)?,
        Err(CanonError::NotCanonical(refused)) => {
            let mut text = format!(in alloc; "at {}", refused.offset)?;
            push_path(&mut text, &refused.path)?;
            write!(text, ": {}", refused.cause)?;
            text
        }
        Err(e) => refused_text(alloc, e)?,
    };
    Ok(text)
}

fn read_text(alloc: Global, octets: &[u8]) -> Result<String, AllocError> {
    let mut text = format!(in alloc; "written")?;
    push_octets(&mut text, octets)?;
    Ok(text)
}

fn refused_text(alloc: Global, e: CanonError) -> Result<String, AllocError> {
    match e {
        CanonError::NotCanonical(refused) => format!(in alloc; "refused at {}", refused.offset),
        CanonError::OutOfMemory => format!(in alloc; "out of memory"),
    }
}

/// What `canonical` answers, if `canonical_into` writes that to each buffer that has its size or up to two octets more,
/// and changes nothing behind it or in a smaller buffer; else the capacity where it doesn't.
pub fn in_each_capacity(alloc: Global, input: &[u8]) -> Result<String, Fault> {
    let expected = match canonical(alloc, input) {
        Ok(expected) => expected,
        Err(e) => return Ok(refused_text(alloc, e)?),
    };
    let mut text = read_text(alloc, &expected)?;
    for capacity in 0..expected.len().saturating_add(3) {
        let mut out = vec![in alloc; FILL; capacity]?;
        if !is_written(input, &mut out, &expected) {
            push_word(&mut text, "but not in")?;
            push_number(&mut text, capacity)?;
        }
    }
    Ok(text)
}

/// Whether the size of what is expected is answered, and the buffer, which has nothing but fill octets, has it and
/// further fill octets, or is too small.
fn is_written(input: &[u8], out: &mut [u8], expected: &[u8]) -> bool {
    let Ok(size) = canonical_into(input, out) else {
        return false;
    };
    size == expected.len() && is_kept(out, expected)
}

fn is_kept(out: &[u8], expected: &[u8]) -> bool {
    match out.split_at_checked(expected.len()) {
        Some((written, others)) => {
            written == expected && others.iter().all(|octet| *octet == FILL)
        }
        None => out.len() < expected.len(),
    }
}
