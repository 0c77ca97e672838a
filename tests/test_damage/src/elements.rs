//! The elements of a message, each before those inside it.
use crate::error::DamageError;
use der_base::header::{Length, Tag, ber_read_element_header};
use std::alloc::Global;

/// Where an element of a message is.
#[derive(Clone, Copy, Debug, PartialEq)]
pub(crate) struct Element {
    /// Where its identifier octets begin.
    pub offset: usize,
    /// Where its content begins.
    pub content: usize,
    /// Where its content ends.
    pub end: usize,
    /// Whether its content ends where its items end, or has one length: the content is a list or is
    /// opened, or the type is BOOLEAN, NULL or a time. One octet more in another content makes another
    /// value of its type.
    pub is_closed: bool,
}

impl Element {
    /// Whether the other element is this one or is inside it.
    pub(crate) fn holds(&self, other: &Element) -> bool {
        self.offset <= other.offset && other.end <= self.end
    }
}

/// The elements of a message, in the order of their offsets. The content of a constructed element is
/// entered, and so is that of a string whose offset is in `opened`.
pub(crate) fn elements_of(
    alloc: Global,
    message: &[u8],
    opened: &[usize],
) -> Result<Vec<Element>, DamageError> {
    let mut elements = Vec::new(alloc);
    let mut offset = 0;
    // Each element has two octets or more, so the loop ends at the end of the message.
    for _ in 0..message.len() {
        if offset >= message.len() {
            break;
        }
        let (element, next) = read_element(message, offset, opened.contains(&offset))?;
        elements.push(element)?;
        offset = next;
    }
    Ok(elements)
}

/// The element at an offset, and where the next one begins: inside it, where it is entered.
fn read_element(
    message: &[u8],
    offset: usize,
    is_opened: bool,
) -> Result<(Element, usize), DamageError> {
    let Some(octets) = message.get(offset..) else {
        return Err(DamageError::Length);
    };
    let (rest, header) = ber_read_element_header(octets)?;
    let Length::Definite(length) = header.length() else {
        return Err(DamageError::Length);
    };
    if length > rest.len() {
        return Err(DamageError::Length);
    }
    let content = message.len().saturating_sub(rest.len());
    let end = content.saturating_add(length);
    let is_entered = is_opened || header.constructed();
    let is_closed = is_entered || header.is_universal() && has_one_length(header.tag());
    // The first content octet of a BIT STRING counts its unused bits.
    let counts = header.is_universal() && header.tag() == Tag::BitString;
    let next = match (is_entered, counts) {
        (false, _) => end,
        (true, false) => content,
        (true, true) => content.saturating_add(1),
    };
    let element = Element {
        offset,
        content,
        end,
        is_closed,
    };
    Ok((element, next))
}

/// Whether the content octets of this type have one length, or one form that ends.
fn has_one_length(tag: Tag) -> bool {
    matches!(
        tag,
        Tag::Boolean | Tag::Null | Tag::UtcTime | Tag::GeneralizedTime
    )
}
