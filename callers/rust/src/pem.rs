//! Blocks of PEM (RFC 7468). This is the feature `pem`.
//!
//! ```
//! use dumarewhi::pem;
//!
//! let text = b"A NULL:\n-----BEGIN NULL-----\nBQA=\n-----END NULL-----\nand more.";
//! let blocks = pem::blocks(text).collect::<Result<Vec<_>, _>>()?;
//! assert_eq!(blocks.len(), 1);
//! assert_eq!((blocks[0].label(), blocks[0].offset()), ("NULL", 8));
//! assert_eq!(blocks[0].octets(), [0x05, 0x00]);
//! # Ok::<(), dumarewhi::Error>(())
//! ```
use crate::ffi::{self, Octets};
use crate::{check_der, Error, ErrorKind, Reason, Result};
use alloc::borrow::Cow;
use alloc::vec::Vec;
use core::iter::FusedIterator;

/// Reads the blocks of a text and skips the text around them. A block begins at the start of a line, or after white
/// space, quotes or `>`. Labels and contents aren't checked.
///
/// A block with wrong base64 (RFC 4648) or an encrypted one (RFC 1421) is an error at its offset; the next block
/// follows. A block without an end, or with another label there, is an error and the last one.
pub fn blocks(text: &[u8]) -> Blocks<'_> {
    Blocks {
        text: Octets::of(text),
        offset: 0,
        characters: alloc::vec![0; text.len()],
        octets: alloc::vec![0; text.len()],
    }
}

/// The octets of the first block with this label, or those of an input that is DER or has no block.
///
/// ```
/// let text = b"-----BEGIN NULL-----\nBQA=\n-----END NULL-----\n";
/// assert_eq!(dumarewhi::pem::decode_input(text, "NULL")?[..], [0x05, 0x00]);
/// assert_eq!(dumarewhi::pem::decode_input(&[0x05, 0x00], "NULL")?[..], [0x05, 0x00]);
/// assert!(dumarewhi::pem::decode_input(text, "CERTIFICATE").is_err());
/// # Ok::<(), dumarewhi::Error>(())
/// ```
pub fn decode_input<'t>(input: &'t [u8], label: &str) -> Result<Cow<'t, [u8]>> {
    if check_der(input).is_ok() || ffi::find_pem(input).is_none() {
        return Ok(Cow::Borrowed(input));
    }
    for block in blocks(input) {
        let block = block?;
        if block.label() == label {
            return Ok(Cow::Owned(block.into_octets()));
        }
    }
    Err(Error::new(ErrorKind::Other("no block has this label"), 0))
}

/// A block of a text.
#[derive(Clone, Debug, PartialEq, Eq, Hash)]
pub struct Block<'t> {
    label: &'t [u8],
    offset: usize,
    octets: Vec<u8>,
}

impl<'t> Block<'t> {
    /// Its label, such as `CERTIFICATE`; empty if it isn't UTF-8.
    pub fn label(&self) -> &'t str {
        core::str::from_utf8(self.label).unwrap_or_default()
    }

    /// Its offset in the text.
    pub fn offset(&self) -> usize {
        self.offset
    }

    /// Its decoded octets.
    pub fn octets(&self) -> &[u8] {
        &self.octets
    }

    /// Its decoded octets.
    pub fn into_octets(self) -> Vec<u8> {
        self.octets
    }
}

forward!(AsRef by octets for Block<'_>);

/// An iterator over the blocks of a text, from [`blocks`].
#[derive(Clone, Debug)]
pub struct Blocks<'t> {
    /// What is left of it.
    text: Octets<'t>,
    /// How many octets were before that.
    offset: usize,
    /// The buffers of a block, which has no more octets than the text.
    characters: Vec<u8>,
    octets: Vec<u8>,
}

impl<'t> Iterator for Blocks<'t> {
    type Item = Result<Block<'t>>;

    fn next(&mut self) -> Option<Result<Block<'t>>> {
        let text = self.text.get();
        let offset = self.offset.saturating_add(ffi::find_pem(text)?);
        let found = ffi::next_pem(&mut self.text, &mut self.characters, &mut self.octets);
        let taken = text.len().saturating_sub(self.text.get().len());
        self.offset = self.offset.saturating_add(taken);
        let error = |number| Error::new(ErrorKind::Malformed(Reason(number)), offset);
        let block = |fields: ffi::PemFields<'t>| Block {
            label: fields.label.get(),
            offset,
            octets: self.octets.get(..fields.length).unwrap_or_default().to_vec(),
        };
        let found = found.map(block).map_err(error);
        if taken == 0 {
            self.text = Octets::default();
        }
        Some(found)
    }
}

impl FusedIterator for Blocks<'_> {}
