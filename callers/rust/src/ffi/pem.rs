//! The calls that find blocks of PEM.
use super::*;

/// Where the first block of a text begins.
pub(crate) fn find_pem(text: &[u8]) -> Option<usize> {
    // SAFETY: as in the module above.
    let (offset, found) = written(|to| unsafe { dm_find_pem(text.as_ptr(), text.len(), to) });
    (found != 0).then_some(offset)
}

/// Takes the next block, with whose octets the second slice begins then, or the number of an error.
pub(crate) fn next_pem<'t>(text: &mut Octets<'t>, c: &mut [u8], o: &mut [u8]) -> Result<PemFields<'t>, u32> {
    // SAFETY: as in the module above.
    value_or_error(|to| unsafe { dm_next_pem(text, c.as_mut_ptr(), c.len(), o.as_mut_ptr(), o.len(), to) })
}
