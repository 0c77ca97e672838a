//! No private number of a key is in what is printed by its type.
mod keys;

use crate::cli::whole_runs::on_screen;
use base64::engine::general_purpose::STANDARD;
use keys::{KEYS, Number};
use std::alloc::{AllocError, Global};
use std::collections::BTreeSet;
use std::process::Abort;
use std::rt::Files;
use std::test::Fail;

/// What prints a key by the first type that it is of.
const BY_ITSELF: &[&[&str]] = &[
    &["der", "show", "--from", "der"],
    &["der", "show", "--from", "der", "--json"],
    &["der", "tree", "--from", "der", "--full"],
    &["der", "tree", "--from", "der", "--no-inside"],
    &["der", "json", "--from", "der"],
    &["der", "json", "--from", "der", "--no-inside"],
];

/// What prints it by a type.
const TREES: &[(&str, &[&str])] = &[
    ("PrivateKeyInfo", &["der", "tree", "--from", "der", "--full", "--as", "PrivateKeyInfo"]),
    ("PrivateKeyInfo", &["der", "json", "--from", "der", "--as", "PrivateKeyInfo"]),
    ("RSAPrivateKey", &["der", "tree", "--from", "der", "--full", "--as", "RSAPrivateKey"]),
    ("RSAPrivateKey", &["der", "json", "--from", "der", "--as", "RSAPrivateKey"]),
    ("ECPrivateKey", &["der", "tree", "--from", "der", "--full", "--as", "ECPrivateKey"]),
    ("ECPrivateKey", &["der", "json", "--from", "der", "--as", "ECPrivateKey"]),
    ("PFX", &["der", "tree", "--from", "der", "--full", "--as", "PFX"]),
    ("PFX", &["der", "json", "--from", "der", "--as", "PFX"]),
];

/// What prints all of it.
const WHOLE: &[&[&str]] = &[
    &["der", "tree", "--from", "der", "--full", "--as", "none"],
    &["der", "json", "--from", "der", "--as", "none"],
];

/// How many digits of a number are looked for at once, in hexadecimal and in decimal, and how many characters of base64.
const HEX: usize = 16;

const DIGITS: usize = 19;

const BASE64: usize = 8;

/// What is printed, as the parts of each length that is looked for.
#[derive(Drop)]
struct Shown<'a> {
    hex: BTreeSet<&'a [u8]>,
    base64: BTreeSet<&'a [u8]>,
    decimal: BTreeSet<&'a [u8]>,
}

/// Whether base64 has an octet (RFC 4648 4).
fn is_base64(octet: &u8) -> bool {
    octet.is_ascii_alphanumeric() || *octet == b'+' || *octet == b'/'
}

/// All parts of a length in a text that have these octets alone.
fn parts(
    alloc: Global,
    text: &[u8],
    length: usize,
    is_of: impl Fn(&u8) -> bool + Copy,
) -> Result<BTreeSet<&[u8]>, AllocError> {
    let mut parts = BTreeSet::new(alloc);
    for run in text.split(move |octet| !is_of(octet)) {
        for part in run.windows(length) {
            parts.insert(part)?;
        }
    }
    Ok(parts)
}

impl<'a> Shown<'a> {
    fn new(alloc: Global, text: &'a [u8]) -> Result<Self, AllocError> {
        Ok(Shown {
            hex: parts(alloc, text, HEX, u8::is_ascii_hexdigit)?,
            base64: parts(alloc, text, BASE64, is_base64)?,
            decimal: parts(alloc, text, DIGITS, u8::is_ascii_digit)?,
        })
    }

    /// Whether some octets of a number, or some of its digits, are in it: in hexadecimal or decimal digits, or base64.
    fn has(&self, alloc: Global, number: &Number) -> Result<bool, AllocError> {
        let (octets, digits) = *number;
        let hex = hex::encode(alloc, octets)?;
        if has_part(&self.hex, hex.as_bytes(), HEX) || has_part(&self.decimal, digits.as_bytes(), DIGITS) {
            return Ok(true);
        }
        // Characters begin at every third octet.
        for begin in 0..3 {
            let base64 = STANDARD.encode(alloc, &octets[begin..])?;
            if has_part(&self.base64, base64.as_bytes(), BASE64) {
                return Ok(true);
            }
        }
        Ok(false)
    }
}

/// Whether a part of this length is among others.
fn has_part(parts: &BTreeSet<&[u8]>, text: &[u8], length: usize) -> bool {
    text.windows(length).any(|part| parts.contains(part))
}

/// Whether a run of the program over a key shows one of its private numbers.
fn shows_any(
    rt: &(impl Files + AllocGlobal),
    arguments: &[&'static str],
    octets: &[u8],
    numbers: &[Number],
) -> Result<bool, AllocError> {
    let (screen, _) = on_screen(rt, arguments, &[], octets, false);
    let shown = Shown::new(rt.alloc(), &screen)?;
    for number in numbers {
        if shown.has(rt.alloc(), number)? {
            return Ok(true);
        }
    }
    Ok(false)
}

/// Prints each key of a type by itself, and by this type.
fn print_keys_of(rt: &(impl Files + AllocGlobal + Abort), of: &str) -> Result<(), Fail> {
    assert!(rt; KEYS.iter().any(|key| key.1 == of), "no key is a {of}");
    for (what, kind, octets, numbers) in KEYS {
        if *kind != of {
            continue;
        }
        for arguments in BY_ITSELF {
            assert!(rt; !shows_any(rt, arguments, octets, numbers)?, "{what}: {arguments:?}");
        }
        for (name, arguments) in TREES {
            if name == kind {
                assert!(rt; !shows_any(rt, arguments, octets, numbers)?, "{what}: {arguments:?}");
            }
        }
    }
    Ok(())
}

#[test]
fn no_private_number_of_a_private_key_info_is_printed(rt: HostRuntime) -> Result<(), Fail> {
    print_keys_of(&rt, "PrivateKeyInfo")
}

#[test]
fn no_private_number_of_an_rsa_key_is_printed(rt: HostRuntime) -> Result<(), Fail> {
    print_keys_of(&rt, "RSAPrivateKey")
}

#[test]
fn no_private_number_of_an_ec_key_is_printed(rt: HostRuntime) -> Result<(), Fail> {
    print_keys_of(&rt, "ECPrivateKey")
}

#[test]
fn no_private_number_of_a_pfx_is_printed(rt: HostRuntime) -> Result<(), Fail> {
    print_keys_of(&rt, "PFX")
}

/// So the numbers would be found.
#[test]
fn all_private_numbers_are_printed_without_a_type(rt: HostRuntime) -> Result<(), Fail> {
    for (what, kind, octets, numbers) in KEYS {
        assert!(rt; TREES.iter().any(|tree| tree.0 == *kind), "{what}: no tree by {kind}");
        for arguments in WHOLE {
            let (screen, _) = on_screen(&rt, arguments, &[], octets, false);
            let shown = Shown::new(rt.alloc(), &screen)?;
            for number in *numbers {
                assert!(rt; shown.has(rt.alloc(), number)?, "{what}: {arguments:?}");
            }
        }
    }
    Ok(())
}
