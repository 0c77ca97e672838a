//! Reads messages of LDAP (RFC 4511) from a stream that may be cut anywhere, and prints each: number, operation, result
//! and names.

use anyhow::{Result, bail};
use der_base::error::{Err as Refused, Needed};
use der_cursor::FieldError;
use messages::ldap::read_message;
use std::alloc::Global;
use std::io::{Read, Write};

/// The most octets that a message may have.
const MAX_MESSAGE: usize = 65536;

/// Prints each message up to the end of the stream, or up to one that is refused. Where the octets are
/// no whole message, the reader says how many more it needs: they are read, and it is called again.
pub fn print_messages<R: Read, W: Write>(alloc: Global, stream: &mut R, out: &mut W) -> Result<()> {
    let mut octets = Vec::new(alloc);
    let mut offset: u64 = 0;
    for _ in 0..u64::MAX {
        match print_message(alloc, &octets, out)? {
            Ok(left) => {
                let taken = octets.len().saturating_sub(left);
                octets.drain(..taken);
                offset = offset.saturating_add(taken as u64);
            }
            Err(refused) => {
                let Some(n) = missing_octets(&refused) else {
                    bail!("message at {offset}: {refused}");
                };
                if octets.len().saturating_add(n) > MAX_MESSAGE {
                    bail!("message at {offset}: too large");
                }
                let count = stream.take(n as u64).read_to_end(&mut octets)?;
                if octets.is_empty() {
                    return Ok(());
                }
                if count < n {
                    bail!("message at {offset}: cut short");
                }
            }
        }
    }
    Ok(())
}

/// Prints the first message of the octets, and returns how many octets follow it.
fn print_message<W: Write>(
    alloc: Global,
    octets: &[u8],
    out: &mut W,
) -> Result<Result<usize, FieldError>> {
    match read_message(alloc, octets) {
        Ok((rest, message)) => {
            writeln!(out, "{message}")?;
            Ok(Ok(rest.len()))
        }
        Err(refused) => Ok(Err(refused)),
    }
}

/// How many octets a message that is cut short needs.
fn missing_octets(refused: &FieldError) -> Option<usize> {
    match refused.refusal.reason {
        Refused::Incomplete(Needed::Size(n)) => Some(n),
        _ => None,
    }
}
