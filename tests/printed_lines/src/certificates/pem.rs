//! Certificates as text (RFC 7468).
use anyhow::{Context, Result, ensure};
use base64::engine::general_purpose::STANDARD;
use bstr::ByteSlice;
use std::alloc::Global;

/// Begins a block, before its label. Octets before it are passed over and may be of any encoding.
pub const BEGIN: &[u8] = b"-----BEGIN ";

const END: &[u8] = b"-----END ";

const DASHES: &[u8] = b"-----";

/// The label of a block: "CERTIFICATE" or another. `block` follows `BEGIN`.
pub fn label_of(block: &[u8]) -> &[u8] {
    match block.split_once_str(DASHES) {
        Some((label, _)) => label,
        None => block,
    }
}

/// Whether a block with this label is a certificate. The second label is an older one (RFC 7468 5.1).
pub fn is_certificate(label: &[u8]) -> bool {
    matches!(label, b"CERTIFICATE" | b"X509 CERTIFICATE")
}

/// Decodes the lines of base64 of a block. Octets after its end are passed over.
pub fn decode_block(alloc: Global, block: &[u8]) -> Result<Vec<u8>> {
    let (label, rest) = block.split_once_str(DASHES).context("no label")?;
    let (lines, end) = rest.split_once_str(END).context("no end")?;
    ensure!(
        label_of(end) == label,
        "the labels of its begin and its end differ"
    );
    let mut characters = Vec::new(alloc);
    for character in lines {
        if !character.is_ascii_whitespace() {
            characters.push(*character)?;
        }
    }
    Ok(STANDARD.decode(alloc, &characters)?)
}
