//! Converting BER to DER.
use crate::element::found;
use crate::error::Result;
use crate::ffi;
#[cfg(feature = "alloc")]
use crate::{Error, ErrorKind};
#[cfg(feature = "alloc")]
use alloc::vec::Vec;

/// Converts all elements of an input from BER to DER, into a buffer. Returns the size of the DER. If the buffer is
/// smaller, its contents are unspecified: call again with that size.
///
/// Lengths become minimal (X.690 10.1), strings primitive (10.2), BOOLEANs 00 or ff (11.1), and unused bits 0 (11.2.1),
/// also inside elements of other classes. The order of a SET OF, default values and types under other tags depend on
/// the ASN.1 and stay as they are. Any other value that isn't DER, such as a time without seconds, is an error.
/// Elements may be nested 101 deep.
///
/// ```
/// use dumarewhi::write_der;
///
/// let input = [0x30, 0x80, 0x01, 0x01, 0x01, 0x00, 0x00];
/// let mut out = [0; 8];
/// let length = write_der(&input, &mut out)?;
/// assert_eq!(out[..length], [0x30, 0x03, 0x01, 0x01, 0xff]);
/// assert_eq!(write_der(&input, &mut [])?, 5);
/// # Ok::<(), dumarewhi::Error>(())
/// ```
pub fn write_der(input: &[u8], out: &mut [u8]) -> Result<usize> {
    let outcome = ffi::write_der(input, out);
    if outcome.status == ffi::NO_ROOM {
        return Ok(outcome.length);
    }
    found(outcome, input).map(|found| found.length)
}

/// Converts elements as [`write_der`] does, into a vector.
///
/// ```
/// use dumarewhi::{check_der, to_der};
///
/// // An OCTET STRING in two parts (X.690 8.7.3).
/// let octets = to_der(&[0x24, 0x80, 0x04, 0x01, 0x61, 0x04, 0x01, 0x62, 0x00, 0x00])?;
/// assert_eq!(octets, [0x04, 0x02, 0x61, 0x62]);
/// assert_eq!(check_der(&octets), Ok(1));
/// # Ok::<(), dumarewhi::Error>(())
/// ```
#[cfg(feature = "alloc")]
pub fn to_der(input: &[u8]) -> Result<Vec<u8>> {
    // They are seldom more octets than before.
    let mut length = input.len();
    loop {
        let mut out = zeros(length)?;
        length = write_der(input, &mut out)?;
        if length <= out.len() {
            out.truncate(length);
            return Ok(out);
        }
    }
}

/// So many octets, unless there is no memory for them.
#[cfg(feature = "alloc")]
pub(crate) fn zeros(length: usize) -> Result<Vec<u8>> {
    let mut octets = Vec::new();
    let reserved = octets.try_reserve_exact(length);
    reserved.map_err(|_| Error::new(ErrorKind::OutOfMemory, 0))?;
    octets.resize(length, 0);
    Ok(octets)
}
