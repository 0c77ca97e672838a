//! The calls that write element after element.
use super::*;
use core::ptr::NonNull;

/// A writer over a slice, which stays borrowed. The callee reads and writes the slice alone, and nothing that is put
/// overlaps it, since it is borrowed by `&mut`.
#[derive(Debug)]
pub(crate) struct Fields<'b> {
    pub(super) state: WriterState,
    buffer: PhantomData<&'b mut [u8]>,
}

// SAFETY: it is a `&mut [u8]` and numbers.
unsafe impl Send for Fields<'_> {}

// SAFETY: through a `&Fields` only the numbers are read.
unsafe impl Sync for Fields<'_> {}

impl<'b> Fields<'b> {
    /// At the start of the slice.
    pub(crate) fn new(buffer: &'b mut [u8]) -> Fields<'b> {
        let state = WriterState {
            octets: NonNull::new(buffer.as_mut_ptr()),
            capacity: buffer.len(),
            count: 0,
            innermost: 0,
            implicit: 0,
            number: 0,
        };
        Fields {
            state,
            buffer: PhantomData,
        }
    }

    /// The number of octets so far, whether they fit or not.
    pub(crate) fn count(&self) -> usize {
        self.state.count
    }

    /// The class and the number of the implicit tag that the next element has.
    pub(crate) fn implicit_tag(&self) -> Option<(u8, u32)> {
        let class = self.state.implicit.checked_sub(1)?;
        Some((class as u8, self.state.number))
    }

    /// The status, and the number of octets that were written or are needed.
    pub(crate) fn finish(&self) -> (u32, usize) {
        let mut length = 0;
        // SAFETY: as in the module above.
        let status = unsafe { dm_finish(&self.state, &mut length) };
        (status, length)
    }
}
