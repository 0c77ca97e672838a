//! Prints the certificates on its standard input: one in DER, or any number in PEM (RFC 7468).
//! It reports each one that it refuses, and where, on its standard error, and goes on with the next.
mod contents;
mod pem;
mod text;
mod values;

use anyhow::{Result, ensure};
use bstr::ByteSlice;
use contents::read_contents;
use pem::{BEGIN, decode_block, is_certificate, label_of};
use sha2::{Digest, Sha256};
use std::alloc::Global;
use std::io::Read;
use text::{Certified, Fingerprint};

/// The identifier octet of a SEQUENCE, with which a certificate begins, and the dashes of PEM don't.
const SEQUENCE: u8 = 0x30;

/// Prints the certificates of the standard input.
pub fn print_input(rt: &HostRuntime) -> Result<()> {
    let mut input = Vec::new(rt.alloc());
    rt.stdin().read_to_end(&mut input)?;
    if input.first() == Some(&SEQUENCE) {
        return print_certificate(rt, rt.alloc(), &input);
    }
    print_blocks(rt, rt.alloc(), &input)
}

/// Prints the certificates of a text in PEM.
fn print_blocks(rt: &(impl Print + Eprint), alloc: Global, input: &[u8]) -> Result<()> {
    let mut number: u64 = 0;
    let mut refused: u64 = 0;
    for block in input.split_str(BEGIN).skip(1) {
        let label = label_of(block);
        if !is_certificate(label) {
            eprintln!(rt; "found {}, not a certificate", label.escape_ascii())?;
            continue;
        }
        number = number.saturating_add(1);
        if let Err(e) = print_block(rt, alloc, block) {
            eprintln!(rt; "certificate {number}: {e}")?;
            refused = refused.saturating_add(1);
        }
    }
    ensure!(number > 0, "no certificate");
    ensure!(refused == 0, "{refused} of {number} certificates refused");
    Ok(())
}

/// Prints the certificate of a block.
fn print_block(rt: &impl Print, alloc: Global, block: &[u8]) -> Result<()> {
    let octets = decode_block(alloc, block)?;
    print_certificate(rt, alloc, &octets)
}

/// Prints a certificate, its fingerprint (the SHA-256 digest of its octets) and an empty line.
fn print_certificate(rt: &impl Print, alloc: Global, octets: &[u8]) -> Result<()> {
    let contents = read_contents(alloc, octets)?;
    let fingerprint = Sha256::digest(octets);
    print!(rt; "{}", Certified(&contents))?;
    println!(rt; "sha256 Fingerprint={}\n", Fingerprint(&fingerprint))?;
    Ok(())
}
