//! Octets in hexadecimal text, as `02 01 05`.
ghost use Rattle.std.specs.Prelude.{◌<◌, IfOk};

use std::alloc::{AllocError, AllocFailed, Global};
use thiserror::Error;

/// Why a text gives no octets.
#[derive(Clone, Copy, Debug, Drop, Error)]
pub enum TextFault {
    #[error("an octet has two digits")]
    NoOctet,
    #[error("a count is a number below 65,536")]
    NoCount,
    #[error("there is no memory")]
    OutOfMemory,
}

impl From<AllocError> for TextFault {
    fn from(_e: AllocError) -> TextFault {
        TextFault::OutOfMemory
    }
}

impl From<AllocFailed<u8>> for TextFault {
    fn from(_e: AllocFailed<u8>) -> TextFault {
        TextFault::OutOfMemory
    }
}

/// The octets that a text spells: numbers of two digits, with a space between them. With points in
/// place of the spaces, and a star and a count after them, they are repeated: `30.80*2` is
/// `30 80 30 80`.
pub fn octets(alloc: Global, text: &str) -> Result<Vec<u8>, TextFault> {
    let mut octets = Vec::new(alloc);
    for word in text.split_ascii_whitespace() {
        let (numbers, count) = word.split_once('*').unwrap_or((word, "1"));
        let Ok(count) = count.parse::<u16>() else {
            return Err(TextFault::NoCount);
        };
        for _ in 0..count {
            push_numbers(&mut octets, numbers)?;
        }
    }
    Ok(octets)
}

/// Adds the octets of numbers with points between them.
fn push_numbers(octets: &mut Vec<u8>, numbers: &str) -> Result<(), TextFault> {
    for number in numbers.split('.') {
        let [high, low] = number.as_bytes() else {
            return Err(TextFault::NoOctet);
        };
        octets.push(digit(*high)? * 16 + digit(*low)?)?;
    }
    Ok(())
}

/// The number of a hexadecimal digit.
fn digit(code: u8) -> Result<u8, TextFault>
    ensures { IfOk result (λ n. n < 16) }
{
    match code {
        b'0'..=b'9' => Ok(code - b'0'),
        b'a'..=b'f' => Ok(code - b'a' + 10),
        _ => Err(TextFault::NoOctet),
    }
}

/// Adds a word to a text, after a space if it isn't the first.
pub fn push_word(text: &mut String, word: &str) -> Result<(), AllocError> {
    if !text.is_empty() {
        text.push(' ')?;
    }
    text.push_str(word)
}

/// Adds octets to a text, each a word of two digits.
pub fn push_octets(text: &mut String, octets: &[u8]) -> Result<(), AllocError> {
    for octet in octets {
        if !text.is_empty() {
            text.push(' ')?;
        }
        write!(text, "{octet:02x}")?;
    }
    Ok(())
}
