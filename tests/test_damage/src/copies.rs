//! Copies of a message with one element damaged.
use crate::elements::Element;
use crate::error::DamageError;
use std::alloc::Global;

/// What is done to an element.
#[derive(Clone, Copy, Debug, PartialEq)]
pub(crate) enum Damage {
    /// Its class is another: Application for Universal, ContextSpecific for Application, and so on.
    Class,
    /// Its constructed bit is turned.
    Constructed,
    /// An octet 00 follows the last octet of its content, and all lengths around it are one more.
    LeftOver,
}

/// A copy of the message whose elements are these, with this one damaged. All offsets up to the end of the content of
/// the element are those of the message.
pub(crate) fn damaged_copy(
    alloc: Global,
    message: &[u8],
    elements: &[Element],
    element: Element,
    damage: Damage,
) -> Result<Vec<u8>, DamageError> {
    let mut octets = Vec::new(alloc);
    octets.extend_from_slice(message)?;
    match damage {
        Damage::Class => change(&mut octets, element.offset, OctetChange::Class)?,
        Damage::Constructed => change(&mut octets, element.offset, OctetChange::Constructed)?,
        Damage::LeftOver => {
            lengthen_all(&mut octets, elements, element)?;
            octets = with_zero(alloc, &octets, element.end)?;
        }
    }
    Ok(octets)
}

/// A change of one octet.
#[derive(Clone, Copy)]
enum OctetChange {
    /// The next class in an identifier octet (X.690 8.1.2.2).
    Class,
    /// The constructed bit of an identifier octet turned (8.1.2.5).
    Constructed,
    /// A length that is one more, in its last octet (8.1.3).
    Length,
}

/// Changes the octet at this place.
fn change(octets: &mut [u8], place: usize, change: OctetChange) -> Result<(), DamageError> {
    let Some(octet) = octets.get_mut(place) else {
        return Err(DamageError::Length);
    };
    *octet = match change {
        OctetChange::Class => octet.wrapping_add(0x40),
        OctetChange::Constructed => *octet ^ 0x20,
        OctetChange::Length => octet.wrapping_add(1),
    };
    Ok(())
}

/// Makes the length of each element around this one, and its own, one more.
fn lengthen_all(
    octets: &mut [u8],
    elements: &[Element],
    element: Element,
) -> Result<(), DamageError> {
    for outer in elements {
        if outer.holds(&element) {
            lengthen(octets, outer)?;
        }
    }
    Ok(())
}

/// Makes the length of an element one more, where that takes no other octet than the last one.
fn lengthen(octets: &mut [u8], element: &Element) -> Result<(), DamageError> {
    let length = element.end.saturating_sub(element.content);
    if length == 0x7f || length % 0x100 == 0xff {
        return Err(DamageError::HeaderGrows);
    }
    change(
        octets,
        element.content.saturating_sub(1),
        OctetChange::Length,
    )
}

/// The octets with an octet 00 at this place.
fn with_zero(alloc: Global, octets: &[u8], place: usize) -> Result<Vec<u8>, DamageError> {
    let Some((before, after)) = octets.split_at_checked(place) else {
        return Err(DamageError::Length);
    };
    let mut longer = Vec::new(alloc);
    longer.extend_from_slice(before)?;
    longer.push(0)?;
    longer.extend_from_slice(after)?;
    Ok(longer)
}
