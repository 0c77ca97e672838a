//! Slots that readers write, and how a row spells them.
use der_base::header::{Class, Tag};
use der_elements::check::{Element, Slot};
use test_words::{push_number, push_tag};
use std::alloc::AllocError;
use test_tables::octets::push_word;

/// An element that no reader writes.
pub const NONE: Element = Element {
    class: Class::Private,
    constructed: true,
    definite: true,
    number: 7,
    header: 0,
    content: 0,
    end: 0,
    inside: 0,
};

/// An extent that no reader writes.
pub const NO_EXTENT: Extent = Extent { header: 9, end: 9 };

/// A slot that keeps where an element is.
#[derive(Clone, Copy, PartialEq)]
pub struct Extent {
    pub header: usize,
    pub end: usize,
}

impl Slot for Extent {
    ghost slot = { λ e. record { header = e.header; end = e.end } };

    fn keep(element: Element) -> Extent {
        Extent {
            header: element.header,
            end: element.end,
        }
    }
}

/// Adds the elements: the class and the number, a constructed form, an indefinite length, where the header and the
/// content begin and where the content ends, and how many elements are inside.
pub fn push_elements(text: &mut String, elements: &[Element]) -> Result<(), AllocError> {
    for element in elements {
        push_element(text, element)?;
    }
    Ok(())
}

fn push_element(text: &mut String, element: &Element) -> Result<(), AllocError> {
    if *element == NONE {
        return push_word(text, "unwritten");
    }
    push_tag(text, element.class, Tag(element.number))?;
    if element.constructed {
        push_word(text, "constructed")?;
    }
    if !element.definite {
        push_word(text, "indefinite")?;
    }
    push_word(text, "at")?;
    for place in [element.header, element.content, element.end] {
        push_number(text, place)?;
    }
    push_word(text, "inside")?;
    push_number(text, element.inside)
}

/// Adds the extents: where the header begins and the content ends.
pub fn push_extents(text: &mut String, extents: &[Extent]) -> Result<(), AllocError> {
    for extent in extents {
        push_extent(text, extent)?;
    }
    Ok(())
}

fn push_extent(text: &mut String, extent: &Extent) -> Result<(), AllocError> {
    if *extent == NO_EXTENT {
        return push_word(text, "unwritten");
    }
    push_word(text, "from")?;
    push_number(text, extent.header)?;
    push_word(text, "to")?;
    push_number(text, extent.end)
}
