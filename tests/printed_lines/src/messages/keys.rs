//! Keys: one in DER, or any number in PEM (RFC 7468).
use crate::messages::key_fields::{Described, Numbered};
use anyhow::{Result, ensure};
use bstr::ByteSlice;
use der_input::next_block;
use certificate_text::{EcKeyText, EncryptedKeyText, PrivateKeyText, PublicKeyText, RsaKeyText};
use x509_keys::{
    read_ec_private_key, read_encrypted_key, read_private_key, read_public_key,
    read_rsa_private_key,
};

/// What is printed of a message.
#[derive(Clone, Copy, PartialEq)]
pub enum Printed {
    Fields,
    Words,
}

/// The identifier octet of a SEQUENCE, with which a key begins, and the dashes of PEM don't.
const SEQUENCE: u8 = 0x30;

/// The octets of 1.2.840.113549.1.1.1, an RSA key (RFC 8017 A.1).
const RSA: &[u8] = b"\x2a\x86\x48\x86\xf7\x0d\x01\x01\x01";

/// Prints the keys of an input. One that is refused is printed with its number and why.
pub fn print_keys(rt: &HostRuntime, input: &[u8], printed: Printed) -> Result<()> {
    if input.first() == Some(&SEQUENCE) {
        return print_key(rt, b"PRIVATE KEY", input, printed);
    }
    let mut number: u64 = 0;
    let mut refused: u64 = 0;
    let mut left = input;
    // Each block has an octet or more, so the loop ends at the end of the input.
    for _ in 0..input.len() {
        let Some((block, rest)) = next_block(left)? else {
            break;
        };
        left = rest;
        if printed == Printed::Fields && !matches!(block.label, b"PRIVATE KEY") {
            println!(rt; "found {}, not a private key", block.label.escape_ascii())?;
            continue;
        }
        number = number.saturating_add(1);
        let octets = block.decode(rt.alloc())?;
        if let Err(e) = print_key(rt, block.label, &octets, printed) {
            println!(rt; "key {number}: {e}")?;
            refused = refused.saturating_add(1);
        }
    }
    ensure!(number > 0, "no private key");
    ensure!(refused == 0, "{refused} of {number} keys refused");
    Ok(())
}

/// Prints a key, and an empty line.
fn print_key(rt: &HostRuntime, label: &[u8], octets: &[u8], printed: Printed) -> Result<()> {
    match printed {
        Printed::Fields => print_fields(rt, octets)?,
        Printed::Words => print_words(rt, label, octets)?,
    }
    println!(rt;)?;
    Ok(())
}

/// Prints the fields of a private key, and the numbers of one of RSA.
fn print_fields(rt: &HostRuntime, octets: &[u8]) -> Result<()> {
    let key = read_private_key(octets)?;
    print!(rt; "{}", Described(&key))?;
    if key.algorithm.identifier.as_bytes() == RSA {
        let numbers = read_rsa_private_key(key.private_key)?;
        print!(rt; "{}", Numbered(&numbers))?;
    }
    Ok(())
}

/// Prints a key in words, by the label of its block.
fn print_words(rt: &HostRuntime, label: &[u8], octets: &[u8]) -> Result<()> {
    match label {
        b"RSA PRIVATE KEY" => {
            let key = read_rsa_private_key(octets)?;
            print!(rt; "{}", RsaKeyText { key: &key })?;
        }
        b"EC PRIVATE KEY" => {
            let key = read_ec_private_key(octets)?;
            print!(rt; "{}", EcKeyText::of(&key))?;
        }
        b"ENCRYPTED PRIVATE KEY" => {
            let key = read_encrypted_key(octets)?;
            print!(rt; "{}", EncryptedKeyText::of(&key))?;
        }
        b"PUBLIC KEY" => {
            let key = read_public_key(octets)?;
            print!(rt; "{}", PublicKeyText::of(&key))?;
        }
        _ => {
            let key = read_private_key(octets)?;
            print!(rt; "{}", PrivateKeyText::of(&key))?;
        }
    }
    Ok(())
}
