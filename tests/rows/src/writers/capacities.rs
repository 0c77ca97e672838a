//! Buffers of every capacity.
use der_writer::WriteError;
use std::alloc::Global;
use test_tables::fault::Fault;
use test_tables::octets::{push_octets, push_word};

/// What is in a buffer before anything is written.
const FILL: u8 = 0xee;

/// The size of the whole buffer.
const SIZE: usize = 1024;

/// The octets that are written; or the capacity in which a writer answers something else.
pub fn written<F>(alloc: Global, write: F) -> Result<String, Fault>
where
    F: Fn(&mut [u8]) -> Result<usize, WriteError>,
{
    let mut whole = [FILL; SIZE];
    let Ok(count) = write(&mut whole) else {
        return Ok(format!(in alloc; "no room")?);
    };
    let expected = &whole[..count];
    let mut text = String::new(alloc);
    for capacity in 0..count + 3 {
        let mut buffer = [FILL; SIZE];
        let outcome = write(&mut buffer[..capacity]);
        if !is_right(expected, capacity, outcome, &buffer) {
            push_word(&mut text, "wrong")?;
        }
    }
    push_octets(&mut text, expected)?;
    Ok(text)
}

/// Whether a buffer of this capacity has these octets, if there is room, and nothing else was written.
fn is_right(
    expected: &[u8],
    capacity: usize,
    outcome: Result<usize, WriteError>,
    buffer: &[u8],
) -> bool {
    match outcome {
        Ok(size) => {
            size == expected.len()
                && &buffer[..size] == expected
                && buffer[size..].iter().all(|octet| *octet == FILL)
        }
        Err(e) => {
            capacity < expected.len()
                && e == WriteError::NoRoom(expected.len())
                && buffer[capacity..].iter().all(|octet| *octet == FILL)
        }
    }
}
