//! The calls that read field after field.
use super::*;
use crate::Tag;

impl<'a> Cursor<'a> {
    /// The implicit tag that the next element has.
    pub(crate) fn implicit_tag(&self) -> Option<Tag> {
        Some(Tag::of(self.implicit.checked_sub(1)? as u8, self.number))
    }

    pub(crate) fn is_next(&self, tag: Tag) -> bool {
        // SAFETY: as in the module above.
        unsafe { dm_is_next(self, tag.class as u8, tag.number) != 0 }
    }

    pub(crate) fn null(&mut self) -> Result<(), Fault> {
        // SAFETY: as in the module above.
        value_or_fault(|_, fault| unsafe { dm_next_null(self, fault) })
    }

    /// A text of the string type with this tag.
    pub(crate) fn text(&mut self, tag: Tag) -> Result<Octets<'a>, Fault> {
        // SAFETY: as in the module above.
        value_or_fault(|to, fault| unsafe { dm_next_text(self, tag.number, to, fault) })
    }

    /// A cursor over the content of an element with this tag.
    pub(crate) fn content(&mut self, tag: Tag, constructed: bool) -> Result<Cursor<'a>, Fault> {
        let (class, constructed) = (tag.class as u8, constructed.into());
        // SAFETY: as in the module above.
        value_or_fault(|to, fault| unsafe {
            dm_next_content(self, class, constructed, tag.number, to, fault)
        })
    }

    pub(crate) fn end(&self) -> Result<(), Fault> {
        // SAFETY: as in the module above.
        value_or_fault(|_, fault| unsafe { dm_end(self, fault) })
    }
}
