//! Prints the lists of revoked certificates on its standard input (RFC 5280 5.1): one in DER, or
//! any number in PEM (RFC 7468). It reports each one that it refuses, and where, on its standard error,
//! and goes on with the next.
mod text;

use anyhow::{Result, ensure};
use bstr::ByteSlice;
use x509::crl::read_certificate_list;
use der_input::next_block;
use std::alloc::Global;
use std::io::Read;
use text::Listed;

/// The identifier octet of a SEQUENCE, with which a list begins, and the dashes of PEM don't.
const SEQUENCE: u8 = 0x30;

/// Prints the lists of the standard input.
pub fn print_input(rt: &HostRuntime) -> Result<()> {
    let mut input = Vec::new(rt.alloc());
    rt.stdin().read_to_end(&mut input)?;
    if input.first() == Some(&SEQUENCE) {
        return print_list(rt, &input);
    }
    print_blocks(rt, rt.alloc(), &input)
}

/// Prints the lists of a text in PEM.
fn print_blocks(rt: &(impl Print + Eprint), alloc: Global, input: &[u8]) -> Result<()> {
    let mut number: u64 = 0;
    let mut refused: u64 = 0;
    let mut left = input;
    // Each block has an octet or more, so the loop ends at the end of the input.
    for _ in 0..input.len() {
        let Some((block, rest)) = next_block(left)? else {
            break;
        };
        left = rest;
        if !matches!(block.label, b"X509 CRL") {
            eprintln!(rt; "found {}, not a list", block.label.escape_ascii())?;
            continue;
        }
        number = number.saturating_add(1);
        let octets = block.decode(alloc)?;
        if let Err(e) = print_list(rt, &octets) {
            eprintln!(rt; "list {number}: {e}")?;
            refused = refused.saturating_add(1);
        }
    }
    ensure!(number > 0, "no list");
    ensure!(refused == 0, "{refused} of {number} lists refused");
    Ok(())
}

/// Prints a list and an empty line.
fn print_list(rt: &impl Print, octets: &[u8]) -> Result<()> {
    let list = read_certificate_list(octets)?;
    println!(rt; "{}", Listed(&list))?;
    Ok(())
}
